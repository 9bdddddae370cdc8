#!/bin/sh
# Times owners over rings beside the same owners over queues.
#
#   bench/run mails [--nllc PATH] [--families "NAME .."] [--owners "COUNT .."] [--deal round|blocks] [--runs N] [--seconds S]
#
# The texts are families of generate.py. `check` is timed over both kinds of mailbox in turn, and the medians are
# printed as a Markdown table; `values` gives the peaks, and its outputs are compared with those of one thread. A
# process gets 6 GB.
set -eu
here=$(cd "$(dirname "$0")" && pwd)
. "$here/texts.sh"
nllc= owners="2 4 16" runs=9 seconds=60 deal=round
families="chain cycle dense most points sparse stairs trickle islands"
while [ $# -gt 1 ]; do
    case $1 in
        --nllc) nllc=$2 ;;
        --families) families=$2 ;;
        --owners) owners=$2 ;;
        --deal) deal=$2 ;;
        --runs) runs=$2 ;;
        --seconds) seconds=$2 ;;
        *) nllc=; break ;;
    esac
    shift 2
done
[ $# -eq 0 ] && [ -n "$nllc" ] || { sed -n '4s/^# *//p' "$0" >&2; exit 2; }

texts=$(mktemp -d)
trap 'rm -rf "$texts"' EXIT
mkdir "$texts/outputs"
make_families "$texts" "$families"
commit=$(git -C "$here" rev-parse --short HEAD 2>/dev/null || echo none)
ulimit -v 6000000
python3 "$here/measure_mails.py" --nllc "$nllc" --texts "$texts" --outputs "$texts/outputs" \
    --owners "$owners" --deal "$deal" --runs "$runs" --seconds "$seconds" --commit "$commit"
