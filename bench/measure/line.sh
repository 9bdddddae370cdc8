#!/bin/sh
# Measures the memory that nllc takes for one line of 64 MiB, beside the text itself.
#
#   bench/run line [--nllc PATH] [--size MIB] [--most MIB]
#
# Each text is a header and one line: of signs, of words, of regions, of one name, of blanks, or a
# remark. None of the forms has such a line, and whatever it holds, the reader of facts keeps nothing of
# it. Prints a Markdown table, a row for each; status 1 where a refusal differs, or the peak of the
# process passes the size of the text by more than `--most` MiB.
set -eu
here=$(cd "$(dirname "$0")" && pwd)
usage() { echo "usage: bench/run line [--nllc PATH] [--size MIB] [--most MIB]" >&2; exit 2; }
nllc= size=64 most=8
while [ $# -gt 1 ]; do
    case $1 in
        --nllc) nllc=$2 ;;
        --size) size=$2 ;;
        --most) most=$2 ;;
        *) usage ;;
    esac
    shift 2
done
[ $# -eq 0 ] && [ -n "$nllc" ] || usage

texts=$(mktemp -d)
trap 'rm -rf "$texts"' EXIT
for kind in signs words regions name blanks remark; do
    python3 "$here/../../check/fuzz/generate.py" line "$kind" "$size" > "$texts/$kind.facts"
done
commit=$(git -C "$here" rev-parse --short HEAD 2>/dev/null || echo none)
python3 "$here/measure.py" line --nllc "$nllc" --texts "$texts" --most "$most" --commit "$commit"
