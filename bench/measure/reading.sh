#!/bin/sh
# Times the reading of big texts by nllc and by the baseline: of facts (8 and 64 MiB), or with
# `--mir` of bodies (8 and 32 MiB).
#
#   bench/run reading [--nllc PATH] [--runs N] [--shuffled | --mir]
#
# The texts end with one line that is out of range, so both programs read all of it, build all of
# it, refuse that line and print nothing else: what is timed is reading alone (facts texts are
# without constraints). The baseline is also timed on the same text with an end in that line's
# place. Prints a Markdown table; status 1 where the refusals differ.
set -eu
here=$(cd "$(dirname "$0")" && pwd)
nllc= runs=5 shuffled= mir=
usage="usage: bench/run reading [--nllc PATH] [--runs N] [--shuffled | --mir]"
while [ $# -gt 0 ]; do
    case $1 in
        --nllc) nllc=$2; shift 2 ;;
        --runs) runs=$2; shift 2 ;;
        --shuffled) shuffled=--shuffled; shift ;;
        --mir) mir=yes; shift ;;
        *) echo "$usage" >&2; exit 2 ;;
    esac
done
[ -n "$nllc" ] || { echo "$usage" >&2; exit 2; }

texts=$(mktemp -d)
trap 'rm -rf "$texts"' EXIT
cargo build --release --offline --quiet --manifest-path "$here/../baseline/Cargo.toml"
if [ -n "$mir" ]; then
    sizes="8 32"
    for size in $sizes; do
        # So many points make a text of about this size.
        body="body $((size * 30700)) 16384"
        python3 "$here/../../check/fuzz/generate_mir.py" $body --refused > "$texts/refused-$size.text"
        python3 "$here/../../check/fuzz/generate_mir.py" $body > "$texts/accepted-$size.text"
    done
else
    sizes="8 64"
    for size in $sizes; do
        python3 "$here/../../check/fuzz/generate.py" reading "$size" $shuffled --refused \
            > "$texts/refused-$size.text"
        sed '$s/.*/end/' "$texts/refused-$size.text" > "$texts/accepted-$size.text"
    done
fi
commit=$(git -C "$here" rev-parse --short HEAD 2>/dev/null || echo none)
python3 "$here/measure.py" reading --nllc "$nllc" --texts "$texts" --runs "$runs" \
    --sizes "$sizes" \
    --commit "$commit" --baseline "$here/../baseline/target/release/baseline"
