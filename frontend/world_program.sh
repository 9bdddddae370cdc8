#!/bin/sh
# Prints the path of the program of world_program.rattle, by which pages of schedules and of MIR texts are made.
#
#   world_program.sh            the proved one, while no source is newer; else a build that nothing has proved, which
#                               is compiled once, in about a minute
#   world_program.sh --built    the same, but compiles nothing; where no build is current, the status is 1
#   world_program.sh --prove    proves and builds it, with what was proved of the crates below it: after
#                               `./nllc.sh --prove` some two minutes, else many more
here=$(cd "$(dirname "$0")" && pwd)
root=$(dirname "$here")
proved=$root/out/world_program/crates/world_program/out/world_program
unproved=$root/out/world_program-unproved
below="nll_sets nll_problem nll_text nll_format nll_facts nll_core fixpoint nll_cut mail nll_mail nll_owner \
    nll_model nll_lists nll_types nll_body nll_mir_grammar nll_live nll_mir_text nll_rules"
used="nll_problem nll_core fixpoint nll_cut mail nll_mail nll_owner nll_model nll_lists nll_text nll_format nll_facts \
    nll_body nll_mir_text nll_rules anyhow"

say() { echo "world_program.sh: $*" >&2; }

# Whether the program is there, and neither its code nor code or definitions below it are newer.
is_current() {
    [ -x "$1" ] || return
    for file in "$here"/world_program.rattle "$here"/world_program.proofs; do
        [ "$file" -nt "$1" ] && return 1
    done
    for crate in $below; do
        for file in "$root/crates/$crate"/src/*.rt "$root/crates/$crate"/src/*/*.rt "$root/crates/$crate"/specs/*.antt; do
            [ "$file" -nt "$1" ] && return 1
        done
    done
    return 0
}

find_built() {
    for program in "$proved" "$unproved"; do
        is_current "$program" && echo "$program" && return
    done
    return 1
}

prove() {
    small=$(mktemp -d) || exit
    trap 'rm -rf "$small"' EXIT
    printf 'nll-facts 1\npoints 1\nend\n' > "$small/facts"
    printf 'nll-schedule 1\nload 0\n' > "$small/schedule"
    "$root/tools/build_program.sh" "$here/world_program" "$below" "$used" \
        1 round "$small/facts" "$small/schedule" || exit
    rm -rf "$root"/out/world_program/crates/nll_*    # copies, of some 7 GB
}

case $#$1 in
    0) find_built || NLLC_CALLED=world_program.sh exec "$root/tools/compile_unproved.py" --asks "$0" \
        --program "$unproved" --tree "$here/world_program" "$below" "$used" world_program 1 round ;;
    1--built) find_built ;;
    1--prove) prove ;;
    1--help | 1-h) sed -n '2,/^here/{/^#/s/^# \{0,1\}//p}' "$0" ;;
    *)
        say "it takes --built, --prove or --help, and no other argument"
        exit 2
        ;;
esac
