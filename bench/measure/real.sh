#!/bin/sh
# Runs `nllc values` beside the baseline on each text of a folder of real inputs
# (`.facts` and `.mir`).
#
#   bench/run real [--nllc PATH] --inputs FOLDER [--runs N] [--seconds S]
#
# Compares the output byte by byte and prints a Markdown table of times and peak memory. Status 1
# where an output differs, a run takes longer than the limit (60 seconds), or there is no input.
set -eu
here=$(cd "$(dirname "$0")" && pwd)
cargo build --release --offline --quiet --manifest-path "$here/../baseline/Cargo.toml"
outputs=$(mktemp -d)
trap 'rm -rf "$outputs"' EXIT
commit=$(git -C "$here" rev-parse --short HEAD 2>/dev/null || echo none)
python3 "$here/measure.py" real --baseline "$here/../baseline/target/release/baseline" \
    --outputs "$outputs" --commit "$commit" "$@"
