#!/bin/sh
# Times nllc and the baseline on whole bodies, part by part.
#
#   bench/run bodies [--nllc PATH] [--runs N] [--seconds S] [--parts PARTS]
#
# The bodies: `frames`, some 100,000 points, 4,000 variables and 108,000 constraints; `ranges`, a
# million points in one block and 4,000 variables with short live ranges; `wide`, one variable with
# 60,000 regions in its type that is live at 100 points. Timed are reading (of the body with a line
# out of range in place of its end), `check` and `values`; of the baseline also what comes before
# solving. PARTS are some of `read bases problem check values`, where `bases` reads and finds the
# base elements: nllc has no such command, but the program of bench/programs/mir_program.sh does, which
# `bench/run bases` measures. Prints a Markdown table; status 1 where ends differ or a run takes longer
# than the limit (60 seconds).
set -eu
here=$(cd "$(dirname "$0")" && pwd)
cargo build --release --offline --quiet --manifest-path "$here/../baseline/Cargo.toml"
texts=$(mktemp -d)
trap 'rm -rf "$texts"' EXIT
python3 "$here/../../check/fuzz/generate_mir.py" body 100000 4000 > "$texts/frames.accepted"
python3 "$here/../../check/fuzz/generate_mir.py" ranges 1000000 4000 > "$texts/ranges.accepted"
python3 "$here/../../check/fuzz/generate_mir.py" wide 60000 100 > "$texts/wide.accepted"
for body in frames ranges wide; do
    sed 's/^return$/goto bb1048576/; /^end$/d' "$texts/$body.accepted" > "$texts/$body.refused"
done
commit=$(git -C "$here" rev-parse --short HEAD 2>/dev/null || echo none)
python3 "$here/measure.py" bodies --baseline "$here/../baseline/target/release/baseline" \
    --texts "$texts" --commit "$commit" "$@"
