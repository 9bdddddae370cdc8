#!/bin/sh
# Times solving by owners that one thread drives, beside the solver and the partner's owners.
#
#   bench/run owners [--program PATH] [--inputs FOLDER] [--families "NAME .."] [--owners "COUNT .."] [--order owners|turns] [--runs N]
#
# PATH is what bench/programs/owner_program.sh builds. The texts are the families of generate.py, two chains, and the
# facts texts of a folder, which are one row together. The seconds are the processor time that the programs
# tell of themselves: to make owners, to load them, and all of their turns. The bar is twice the solver's
# seconds, 60 nanoseconds for each growth that is grown and 250 for each that is received. With `--order
# turns` an owner posts after each growth that it receives. Prints a Markdown table; status 1 where values
# differ or a run doesn't end. A process gets 6 GB.
set -eu
here=$(cd "$(dirname "$0")" && pwd)
. "$here/texts.sh"
program= inputs= owners="1 2 4 16 64" runs=3 seconds=60 order=owners
families="chain-2000x100 chain-20000x50 chain cycle dense most points sparse stairs trickle full"
while [ $# -gt 1 ]; do
    case $1 in
        --program) program=$2 ;;
        --inputs) inputs=$2 ;;
        --families) families=$2 ;;
        --owners) owners=$2 ;;
        --order) order=$2 ;;
        --runs) runs=$2 ;;
        --seconds) seconds=$2 ;;
        *) program=; break ;;
    esac
    shift 2
done
[ $# -eq 0 ] && [ -n "$program" ] || { sed -n '4s/^# *//p' "$0" >&2; exit 2; }

texts=$(mktemp -d)
trap 'rm -rf "$texts"' EXIT
cargo build --release --offline --quiet --manifest-path "$here/../baseline/Cargo.toml"
make_families "$texts" "$families"
commit=$(git -C "$here" rev-parse --short HEAD 2>/dev/null || echo none)
ulimit -v 6000000
python3 "$here/measure_owners.py" --program "$program" --texts "$texts" ${inputs:+--inputs "$inputs"} \
    --owners "$owners" --order "$order" --runs "$runs" --seconds "$seconds" --commit "$commit" \
    --baseline "$here/../baseline/target/release/baseline"
