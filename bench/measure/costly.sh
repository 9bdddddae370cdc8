#!/bin/sh
# Times `check` by nllc and by the baseline on MIR texts that mean little and repeat what they ask.
#
#   bench/run costly [--nllc PATH] [--runs N] [--seconds S]
#
# The texts: copies, borrows, structs made and calls by types of 2,047 references of one region, written out or of a
# struct's field; one line of 64 MiB of nested references of an unknown region; switches with as many edges as the limit.
# The baseline goes by its newer solver, as nllc does; the older one takes the square of such repetitions.
# Prints a Markdown table; status 1 where ends differ or a run takes longer than the limit (60 seconds).
set -eu
here=$(cd "$(dirname "$0")" && pwd)
cargo build --release --offline --quiet --manifest-path "$here/../baseline/Cargo.toml"
texts=$(mktemp -d)
trap 'rm -rf "$texts"' EXIT
python3 "$here/../../check/fuzz/generate_mir.py" costly --into "$texts"
commit=$(git -C "$here" rev-parse --short HEAD 2>/dev/null || echo none)
python3 "$here/measure.py" limits --newer --baseline "$here/../baseline/target/release/baseline" \
    --texts "$texts" --commit "$commit" "$@"
