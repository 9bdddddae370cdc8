#!/bin/sh
# Times owe, clear and leave by threads, by both kinds of ledgers, beside plain Rust.
#
#   bench/run ledgers [--program PATH] [--threads "1 2 4"] [--count ROUNDS] [--runs N]
#
# PATH is what bench/programs/ledger_program.sh builds. Beside it run two atomic words, and two numbers under a lock of std
# (`baseline/src/bin/ledgers`). Prints a Markdown table; status 1 where a run doesn't end well.
set -eu
here=$(cd "$(dirname "$0")" && pwd)
[ $# -ge 2 ] && [ "$1" = --program ] || { sed -n '4s/^# *//p' "$0" >&2; exit 2; }
cargo build --release --offline --quiet --manifest-path "$here/../baseline/Cargo.toml"
commit=$(git -C "$here" rev-parse --short HEAD 2>/dev/null || echo none)
python3 "$here/measure_rates.py" ledgers "$@" --commit "$commit" --baseline "$here/../baseline/target/release/ledgers"
