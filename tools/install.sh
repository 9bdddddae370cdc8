#!/bin/sh
# Installs nllc for all who have the folder's bin on their PATH, or takes it away again.
#
#   install.sh install PREFIX      the program, proved where it was proved; what makes pages; man page, completions
#   install.sh uninstall PREFIX    removes what that put there
#
# Where no program is current one is compiled, in about a minute, which needs `rt` of the Rattle kit; the installed copy
# needs it no longer. Files go to PREFIX/bin, PREFIX/lib/nllc and PREFIX/share, and depend on PREFIX in nothing.
root=$(dirname -- "$(dirname -- "$(readlink -f -- "$0")")")

say() { echo "install.sh: $*" >&2; }

# Where it can't go on: a line, and the status of the command.
refuse() {
    status=$1
    shift
    say "$@"
    exit "$status"
}

usage() { sed -n '2,/^root/{/^#/s/^# \{0,1\}//p}' "$0"; }

# The files outside of lib/nllc: each name below PREFIX, and its source below the root. bin/cargo-nllc is a link.
files() {
    cat <<END
bin/nllc nllc.sh
share/man/man1/nllc.1 tools/installed/nllc.1
share/bash-completion/completions/nllc tools/installed/nllc.bash
share/zsh/site-functions/_nllc tools/installed/_nllc
share/fish/vendor_completions.d/nllc.fish tools/installed/nllc.fish
END
}

# The folder must be one in which files can be made.
make_folder() { mkdir -p "$1" 2>/dev/null && [ -w "$1" ] || refuse 3 "$1 can't be written; name another by PREFIX"; }

put() {
    make_folder "${2%/*}"
    cp "$1" "$2" && chmod "$3" "$2" || refuse 3 "$2 can't be written"
}

# The program, under a name that tells whether it's proved, and the line of the kit that built it.
put_program() {
    name=$1 path=$2
    case $path in *-unproved) name=$name-unproved ;; esac
    put "$path" "$lib/$name" 755
    [ ! -e "$path.kit" ] || put "$path.kit" "$lib/$name.kit" 644
}

install_all() {
    set -- $("$root/nllc.sh" --which) || exit
    standing=$1 program=$("$root/nllc.sh" --built)
    world=$("$root/frontend/world_program.sh") || exit
    [ ! -e "$lib" ] || [ -e "$lib/commit" ] || refuse 2 "$lib is something else than an installed nllc"
    make_folder "$prefix"
    rm -rf "$lib"
    make_folder "$lib"
    put_program nllc "$program"
    put_program world_program "$world"
    (cd "$root" && find frontend -name tests -prune -o -name __pycache__ -prune -o -type f -print) | while read -r file; do
        [ -x "$root/$file" ] && mode=755 || mode=644
        put "$root/$file" "$lib/$file" "$mode"
    done || exit
    "$root/nllc.sh" --version | sed -n 's/^nllc, commit //p' > "$lib/commit"
    files | while read -r name source; do
        [ -e "$root/$source" ] || continue
        case $name in bin/*) mode=755 ;; *) mode=644 ;; esac
        put "$root/$source" "$prefix/$name" "$mode"
    done || exit
    [ ! -e "$lib/frontend/cargo-nllc" ] || ln -sf ../lib/nllc/frontend/cargo-nllc "$prefix/bin/cargo-nllc"
    case $standing in
        proved) say "installed in $prefix: the proved program" ;;
        *) say "installed in $prefix: a build that isn't proved; for the proved program ./nllc.sh --prove, and install again" ;;
    esac
    case :$PATH: in *:"$prefix/bin":*) ;; *) say "$prefix/bin isn't on your PATH" ;; esac
}

uninstall_all() {
    [ -e "$lib" ] || refuse 2 "there is no nllc in $prefix"
    rm -rf "$lib" "$prefix/bin/cargo-nllc"
    files | while read -r name _; do rm -f "$prefix/$name"; done
    say "removed from $prefix"
}

case $2 in /*) prefix=$2 ;; *) prefix=$PWD/$2 ;; esac
lib=$prefix/lib/nllc
case $#$1${2:+:} in
    2install:) install_all ;;
    2uninstall:) uninstall_all ;;
    2install | 2uninstall) refuse 2 "PREFIX is empty" ;;
    1--help | 1-h) usage ;;
    *)
        usage >&2
        exit 2
        ;;
esac
