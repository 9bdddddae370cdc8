#!/bin/sh
# Times owners in threads of their own, beside one thread and beside the partner's owners in threads.
#
#   bench/run threads [--nllc PATH] [--inputs FOLDER] [--families "NAME .."] [--owners "COUNT .."] [--deal round|blocks] [--runs N] [--seconds S]
#
# The texts are the families of generate.py, and the facts texts of a folder, which are one row together. `check`
# is timed on each text and on the same text with a last line that is out of range, which is read and refused; the
# difference is what solving takes. Outputs of `values` are compared byte by byte, and their runs give the peaks.
# The partner tells how much grew and was received. `islands` is dealt in blocks, the others as `--deal` says. Prints
# Markdown tables, and which of the wanted figures are met; status 1 where an answer differs or a run doesn't end.
# A process gets 6 GB.
set -eu
here=$(cd "$(dirname "$0")" && pwd)
. "$here/texts.sh"
nllc= inputs= owners="1 2 4 16" runs=3 seconds=60 deal=round
families="chain cycle dense most points sparse stairs trickle full islands"
while [ $# -gt 1 ]; do
    case $1 in
        --nllc) nllc=$2 ;;
        --inputs) inputs=$2 ;;
        --families) families=$2 ;;
        --owners) owners=$2 ;;
        --deal) deal=$2 ;;
        --runs) runs=$2 ;;
        --seconds) seconds=$2 ;;
        *) nllc=; break ;;
    esac
    shift 2
done
[ $# -eq 0 ] && [ -n "$nllc" ] || { sed -n '4s/^# *//p' "$0" >&2; exit 2; }

texts=$(mktemp -d)
trap 'rm -rf "$texts"' EXIT
mkdir "$texts/inputs" "$texts/outputs"
cargo build --release --offline --quiet --manifest-path "$here/../baseline/Cargo.toml"
if [ -n "$families" ]; then
    make_families "$texts" "$families"
    make_refused "$texts"
fi
if [ -n "$inputs" ]; then
    cp "$inputs"/*.facts "$texts/inputs"
    make_refused "$texts/inputs"
fi
commit=$(git -C "$here" rev-parse --short HEAD 2>/dev/null || echo none)
ulimit -v 6000000
python3 "$here/measure_threads.py" --nllc "$nllc" --texts "$texts" ${inputs:+--inputs "$texts/inputs"} \
    --outputs "$texts/outputs" --owners "$owners" --deal "$deal" --runs "$runs" --seconds "$seconds" \
    --commit "$commit" --baseline "$here/../baseline/target/release/baseline"
