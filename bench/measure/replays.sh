#!/bin/sh
# Times `nllc replay` on long schedules over the largest of some real inputs.
#
#   bench/run replays [--nllc PATH] --inputs FOLDER [--owners "COUNT .."] [--events "COUNT .."] [--deal round|blocks] [--runs N] [--seconds S]
#
# The partner makes a schedule of as many events as the largest number of `--events`, as owners in threads might run;
# the others are its beginnings. Each is timed, and once more with a last line that is out of range, which is read and
# refused; the difference is what the events take. Outputs must be those of the partner's `replay`, byte by byte.
# Prints Markdown tables; status 1 where an output differs or a run doesn't end. A process gets 6 GB.
set -eu
here=$(cd "$(dirname "$0")" && pwd)
nllc= inputs= owners="2 16" events="0 250000 500000 1000000" runs=3 seconds=60 deal=round
while [ $# -gt 1 ]; do
    case $1 in
        --nllc) nllc=$2 ;;
        --inputs) inputs=$2 ;;
        --owners) owners=$2 ;;
        --events) events=$2 ;;
        --deal) deal=$2 ;;
        --runs) runs=$2 ;;
        --seconds) seconds=$2 ;;
        *) nllc=; break ;;
    esac
    shift 2
done
[ $# -eq 0 ] && [ -n "$nllc" ] && [ -n "$inputs" ] || { sed -n '4s/^# *//p' "$0" >&2; exit 2; }

work=$(mktemp -d)
trap 'rm -rf "$work"' EXIT
baseline="$here/../baseline/target/release/baseline"
cargo build --release --offline --quiet --manifest-path "$here/../baseline/Cargo.toml"
text=$(ls -S "$inputs"/*.facts | head -n 1)
most=$(printf '%s\n' $events | sort -n | tail -n 1)
for count in $owners; do
    "$baseline" schedule "$most" "$text" --owners "$count" --deal "$deal" > "$work/all"
    for number in $events; do
        head -n "$((number + 1))" "$work/all" > "$work/$count-$number.schedule"
        { cat "$work/$count-$number.schedule"; echo "load $count"; } > "$work/$count-$number.refused"
    done
done
rm "$work/all"
commit=$(git -C "$here" rev-parse --short HEAD 2>/dev/null || echo none)
ulimit -v 6000000
python3 "$here/measure_replays.py" --nllc "$nllc" --baseline "$baseline" --text "$text" --schedules "$work" \
    --owners "$owners" --events "$events" --deal "$deal" --runs "$runs" --seconds "$seconds" --commit "$commit"
