#!/bin/sh
# Times `check` by nllc and by the baseline on MIR texts at the limits of the format.
#
#   bench/run limits [--nllc PATH] [--runs N] [--seconds S]
#
# The texts are some of those that `check/run mir` compares answers on (`--limits` and `--hostile`).
# Prints a Markdown table; status 1 where ends differ or a run takes longer than the limit (60 seconds).
set -eu
here=$(cd "$(dirname "$0")" && pwd)
cargo build --release --offline --quiet --manifest-path "$here/../baseline/Cargo.toml"
texts=$(mktemp -d)
trap 'rm -rf "$texts"' EXIT
python3 "$here/../../check/fuzz/generate_mir.py" limits --into "$texts" \
    blanks_of_a_mebibyte operands_of_a_mebibyte place_of_a_mebibyte \
    points_at_limit points_past_limit blocks_at_limit variables_at_limit constraints_at_limit \
    plain_variables_live_long many_regions_live_long many_references_live_long \
    drop_of_unlike_doubles large_field_copied_often line_of_references line_of_parts line_of_nameless
python3 "$here/../../check/fuzz/generate_mir.py" hostile --into "$texts" deep_references deep_references_too_large
commit=$(git -C "$here" rev-parse --short HEAD 2>/dev/null || echo none)
python3 "$here/measure.py" limits --baseline "$here/../baseline/target/release/baseline" \
    --texts "$texts" --commit "$commit" "$@"
