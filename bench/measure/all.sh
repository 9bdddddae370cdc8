#!/bin/sh
# Runs the measurements of docs/dev/BENCHMARKS.md that need no program but nllc and the partner, one after the other.
#
#   bench/run all [--nllc PATH] --into FOLDER [--inputs FOLDER] [--program PATH]
#
# The tables go into files of FOLDER, one for each script; of `--inputs` real functions are timed too, and with
# `--program` (what bench/programs/owner_program.sh builds) owners that one thread drives. It takes half an hour on a machine that
# does nothing else. Prints each script's name and status; status 1 where one of them ends with another than 0.
set -u
here=$(cd "$(dirname "$0")" && pwd)
nllc= into= inputs= program= worst=0
usage="usage: bench/run all [--nllc PATH] --into FOLDER [--inputs FOLDER] [--program PATH]"
while [ $# -gt 1 ]; do
    case $1 in
        --nllc) nllc=$2 ;;
        --into) into=$2 ;;
        --inputs) inputs=$2 ;;
        --program) program=$2 ;;
        *) nllc=; break ;;
    esac
    shift 2
done
[ $# -eq 0 ] && [ -n "$nllc" ] && [ -n "$into" ] || { echo "$usage" >&2; exit 2; }
mkdir -p "$into" || exit 2

# measure NAME SCRIPT WORD..: the script's table goes to the file of that name.
measure() {
    name=$1 script=$2
    shift 2
    "$here/$script" "$@" > "$into/$name.md" 2> "$into/$name.err"
    status=$?
    [ $status -eq 0 ] || worst=1
    echo "$name: $status"
}

measure threads threads.sh --nllc "$nllc" ${inputs:+--inputs "$inputs"}
measure short threads.sh --nllc "$nllc" --families "stairs trickle" --runs 15
[ -z "$program" ] || measure owners owners.sh --program "$program" ${inputs:+--inputs "$inputs"}
measure mir reading.sh --nllc "$nllc" --runs 9 --mir
measure facts reading.sh --nllc "$nllc" --runs 9
measure shuffled reading.sh --nllc "$nllc" --runs 9 --shuffled
measure bodies bodies.sh --nllc "$nllc" --runs 9
measure limits limits.sh --nllc "$nllc" --runs 3
measure costly costly.sh --nllc "$nllc" --runs 3
measure line line.sh --nllc "$nllc"
measure everywhere solving.sh --nllc "$nllc" --families "everywhere circle row"
if [ -n "$inputs" ]; then
    measure real solving.sh --nllc "$nllc" --inputs "$inputs"
    measure replays replays.sh --nllc "$nllc" --inputs "$inputs" --runs 9
fi
measure solving solving.sh --nllc "$nllc" --families "chain cycle dense islands most points sparse stairs trickle"
exit $worst
