#!/bin/sh
# Proves and builds ledger_program.rattle, which owes and clears in threads, and prints the path of the program:
#
#   bench/run ledgers --program "$(bench/programs/ledger_program.sh)"
[ "$#" = 0 ] || { sed -n '2,/^\[/{/^#/s/^# \{0,1\}//p}' "$0"; exit; }
set -eu
here=$(cd "$(dirname "$0")" && pwd)
"$here/../../tools/build_program.sh" "$here/ledger_program" "nll_sets nll_problem fixpoint ledger" \
    "nll_sets nll_problem fixpoint ledger anyhow thiserror" words 2 1000
