#!/bin/sh
# Times growths between two threads on two processors, by both kinds of mailboxes, beside plain Rust.
#
#   bench/run mailboxes [--program PATH] [--processors 0,1] [--count GROWTHS] [--runs N]
#
# PATH is what bench/programs/mail_program.sh builds. Beside it run a ring on std's atomics, the same ring with sequentially consistent
# steps alone, and a channel of std (`baseline/src/bin/mailboxes`). Prints a Markdown table, and how many growths of memory
# runs ask for: a short one as many as one ten times as long, where posts and takes ask for none; and one that settles its
# mailboxes as many as one that lets their ends go, where `settle` asks for none. Status 1 where they differ.
set -eu
here=$(cd "$(dirname "$0")" && pwd)
[ $# -ge 2 ] && [ "$1" = --program ] || { sed -n '4s/^# *//p' "$0" >&2; exit 2; }
cargo build --release --offline --quiet --manifest-path "$here/../baseline/Cargo.toml"
commit=$(git -C "$here" rev-parse --short HEAD 2>/dev/null || echo none)
python3 "$here/measure_rates.py" mailboxes "$@" --commit "$commit" \
    --baseline "$here/../baseline/target/release/mailboxes"
python3 "$here/asked_memory.py" --program "$2" "ring 1000" "ring 10000"
python3 "$here/asked_memory.py" --program "$2" "ring-apart 1000" "ring-settled 1000"
