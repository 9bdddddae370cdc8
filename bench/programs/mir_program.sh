#!/bin/sh
# Proves and builds mir_program.rattle, which reads MIR texts and finds where variables are live, and
# prints the path of the program. It stands in for nllc where finding the base elements is timed:
#
#   bench/run bases --program "$(bench/programs/mir_program.sh)"
[ "$#" = 0 ] || { sed -n '2,/^\[/{/^#/s/^# \{0,1\}//p}' "$0"; exit; }
set -eu
here=$(cd "$(dirname "$0")" && pwd)
small=$(mktemp)
trap 'rm -f "$small"' EXIT
printf 'nll-mir 1\nlet _0: int\nblocks 1\nblock bb0\nreturn\nend\n' > "$small"
"$here/../../tools/build_program.sh" "$here/mir_program" \
    "nll_sets nll_problem nll_text nll_format nll_facts nll_types nll_body nll_mir_grammar \
    nll_live nll_mir_text" \
    "nll_sets nll_problem nll_body nll_live nll_mir_text" bases "$small"
