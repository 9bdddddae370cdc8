#!/bin/sh
# Proves and builds a program that no crate of the gate has, as those of bench/programs, which are there for
# measurements and comparisons alone, runs it once, and prints its path.
#
#   build_program.sh NAME BELOW USED WORD..
#   build_program.sh --tree FOLDER NAME BELOW USED
#
# NAME is a path: the source is NAME.rattle. NAME.modules, if there is one, has the paths of sources that are modules of
# the program, which get their written proofs, and NAME.proofs its own, each after a line `== PATH`. BELOW are the
# crates that it stands on, directly or not, and USED those that it names, the kit's among them; the words are those of
# the run. With `--tree` nothing is proved or built: FOLDER gets the sources of the program and of the crates below it
# (tools/compile_unproved.py).
# Such a program is no crate of the gate, which takes no `.rt` file outside of one. It is built in
# out/NAME, over copies of the crates below it with what was built of them, so that none of these is
# proved again where it was proved before.
set -eu
here=$(cd "$(dirname "$0")" && pwd)
root=$(dirname "$here")
case ${1:---help} in
    -h | --help) sed -n "2,/^set/{/^#/s/^# \\{0,1\\}//p}" "$0"; exit ;;
esac
to=
if [ "$1" = --tree ]; then
    to=$2
    shift 2
fi
name=$(basename "$1") below=$2 used=$3
folder=$(cd "$(dirname "$1")" && pwd)
shift 3
room=${to:-$root/out/$name}
[ "$to" ] || rm -rf "$room"
mkdir -p "$room/crates/$name/src"
for crate in $below; do
    if [ "$to" ]; then
        tar -C "$root/crates" --exclude="$crate/out" -cf - "$crate" | tar -C "$room/crates" -xf -
    else
        cp -a "$root/crates/$crate" "$room/crates/$crate"
    fi
    grep "^$crate:" "$root/crates.txt"
done > "$room/crates.txt"
echo "$name: $used" >> "$room/crates.txt"
cp "$root/HANDLES" "$room/HANDLES"
cp "$folder/$name.rattle" "$room/crates/$name/src/main.rt"
cd "$room/crates/$name"
[ ! -f "$folder/$name.modules" ] || while IFS=/ read -r _ crate _ module; do
    cp "$root/crates/$crate/src/$module" src/
    proofs=proofs/${module%.rt}
    [ -d "$root/crates/$crate/$proofs" ] || continue
    mkdir -p proofs && cp -r "$root/crates/$crate/$proofs" proofs/
    find "$proofs" -type f -exec sed -i "s/Rattle\.$crate\./Rattle.$name./" {} +
done < "$folder/$name.modules"
if [ -f "$folder/$name.proofs" ]; then
    mkdir -p proofs && : > proofs/Lib.antt
    sed -n 's/^== //p' "$folder/$name.proofs" | while read -r path; do
        mkdir -p "$(dirname "$path")"
        awk -v path="$path" '/^== /{here = $2 == path; next} here' "$folder/$name.proofs" > "$path"
    done
fi
[ -z "$to" ] || exit 0
rt run -- "$@" > "$room/build.log" 2>&1 || { cat "$room/build.log" >&2; exit 1; }
echo "$room/crates/$name/out/$name"
