#!/bin/sh
# Times solving by nllc beside the baseline's two solvers: `--runs`, which goes about it as nllc does, and the old one.
#
#   bench/run solving [--nllc PATH] [--runs N] [--seconds S] [--families "NAME NAME .."] [--inputs FOLDER]
#
# The texts are the families of generate.py or, where a folder is given, its facts texts. `check` is timed on each
# text and on the same text with a last line that is out of range, which is read and refused; the difference is what
# solving takes. Outputs of `values` are compared byte by byte. Prints a Markdown table; status 1 where nllc and
# `--runs` differ or don't end. A process gets 6 GB.
set -eu
here=$(cd "$(dirname "$0")" && pwd)
. "$here/texts.sh"
nllc= runs=5 seconds=60 inputs= families="chain cycle dense most points sparse stairs trickle"
while [ $# -gt 0 ]; do
    case $1 in
        --nllc) nllc=$2; shift 2 ;;
        --runs) runs=$2; shift 2 ;;
        --seconds) seconds=$2; shift 2 ;;
        --families) families=$2; shift 2 ;;
        --inputs) inputs=$2; shift 2 ;;
        *) nllc=; break ;;
    esac
done
[ -n "$nllc" ] || { sed -n '4s/^# *//p' "$0" >&2; exit 2; }

texts=$(mktemp -d)
trap 'rm -rf "$texts"' EXIT
mkdir "$texts/outputs"
cargo build --release --offline --quiet --manifest-path "$here/../baseline/Cargo.toml"
if [ -n "$inputs" ]; then
    cp "$inputs"/*.facts "$texts"
else
    make_families "$texts" "$families"
fi
make_refused "$texts"
commit=$(git -C "$here" rev-parse --short HEAD 2>/dev/null || echo none)
ulimit -v 6000000
python3 "$here/measure.py" solving --nllc "$nllc" --texts "$texts" --outputs "$texts/outputs" --runs "$runs" \
    --seconds "$seconds" --commit "$commit" --baseline "$here/../baseline/target/release/baseline"
