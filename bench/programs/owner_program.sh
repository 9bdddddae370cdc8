#!/bin/sh
# Proves and builds owner_program.rattle, which solves facts texts by owners that one thread drives, and
# prints the path of the program:
#
#   bench/run owners --program "$(bench/programs/owner_program.sh)"
[ "$#" = 0 ] || { sed -n '2,/^\[/{/^#/s/^# \{0,1\}//p}' "$0"; exit; }
set -eu
here=$(cd "$(dirname "$0")" && pwd)
small=$(mktemp)
trap 'rm -f "$small"' EXIT
printf 'nll-facts 1\npoints 1\nend\n' > "$small"
"$here/../../tools/build_program.sh" "$here/owner_program" \
    "nll_sets nll_problem nll_text nll_format nll_facts nll_core fixpoint nll_cut mail nll_mail nll_owner" \
    "nll_sets nll_problem nll_facts nll_core fixpoint nll_cut mail nll_mail nll_owner anyhow thiserror" \
    "$small" owners round 2
