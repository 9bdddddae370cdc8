#!/bin/sh
# Proves and builds reach_program.rattle, which compares by random graphs what owners in threads and one keeper
# alone reach with what a plain search does, and prints the path of the program:
#
#   "$(bench/programs/reach_program.sh)" 1 5000
#
# With `--tree FOLDER` the sources are only laid out there. Then `cd FOLDER/crates/reach_program`, and
# `rt try --seconds 600 -- 1 5000` runs the program without proofs.
case ${1:-} in
    '' | --tree) ;;
    *) sed -n '2,/^case/{/^#/s/^# \{0,1\}//p}' "$0"; exit ;;
esac
set -eu
here=$(cd "$(dirname "$0")" && pwd)
below="nll_sets fixpoint mail ledger worker run keeper reach"
[ "$#" != 0 ] || set -- "$here/reach_program" "$below" "$below anyhow thiserror" 1 20
[ "$1" != --tree ] || set -- --tree "$2" "$here/reach_program" "$below" "$below anyhow thiserror"
"$here/../../tools/build_program.sh" "$@"
