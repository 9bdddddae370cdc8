#!/bin/sh
# Proves and builds mail_program.rattle, which delivers growths from thread to thread, and prints the path of the
# program:
#
#   bench/run mailboxes --program "$(bench/programs/mail_program.sh)"
[ "$#" = 0 ] || { sed -n '2,/^\[/{/^#/s/^# \{0,1\}//p}' "$0"; exit; }
set -eu
here=$(cd "$(dirname "$0")" && pwd)
below="nll_sets nll_problem mail nll_mail"
"$here/../../tools/build_program.sh" "$here/mail_program" "$below" "$below anyhow thiserror" ring 1000
