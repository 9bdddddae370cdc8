#!/bin/sh
# Runs nllc with these arguments: the program that `./nllc.sh --prove` proved and built, while no source is newer.
# Until then a build of the same sources that nothing has proved, with checks at run time and not optimised: it is
# compiled once, in about a minute, and kept in out/; a line on standard error says so, once an hour.
# Newer sources are the code and the definitions of crates/, and crates.txt: a proof that changed changes no program.
# Commands such as `rust` and `page` are those of other programs, in frontend/: they make facts texts of Rust files, and
# pages, and have nllc answer what they make. In an installed copy (tools/install.sh) all of it is in lib/nllc.
called=${0##*/}
self=$0
[ ! -h "$self" ] || self=$(readlink -f -- "$self")
case $self in */*) here=${self%/*} ;; *) here=. ;; esac
if [ -e "$here/crates.txt" ]; then
    home=$here proved=$here/crates/nllc/out/nllc unproved=$here/out/nllc-unproved
    advice="$0 --prove makes the proved one"
else
    case $here in */bin) home=${here%/bin}/lib/nllc ;; *) home=$here/../lib/nllc ;; esac
    proved=$home/nllc unproved=$home/nllc-unproved
    advice="$called version says more"
fi

say() { echo "$called: $*" >&2; }

# Ends with this status and a line.
end() {
    status=$1
    shift
    say "$@"
    exit "$status"
}

print_lines() {
    trap '' PIPE    # a closed pipe is an error like others
    printf '%s\n' "$@" 2>/dev/null || end 3 "standard output can't be written"
}

python() {
    command -v python3 >/dev/null || end 127 "python3, 3.10 or later, isn't on the PATH"
    NLLC_CALLED=$called exec python3 "$@"
}

frontend() { python "$home/frontend/run" "$@"; }

# Whether one of the files behind the program is newer.
has_newer() {
    than=$1
    shift
    for file; do
        [ "$file" -nt "$than" ] && return
    done
    return 1
}

# Whether the program is there, and no source is newer.
is_current() {
    [ -x "$1" ] || return
    [ "$home" = "$here" ] || return 0
    ! has_newer "$1" "$here"/crates.txt "$here"/crates/*/src/*.rt "$here"/crates/*/src/*/*.rt \
        "$here"/crates/*/specs/*.antt
}

# Finds the program that is there and current: its path and its standing.
find_built() {
    for program in "$proved" "$unproved"; do
        is_current "$program" && return
    done
    program=''
    return 1
}

is_proved() { [ "$program" = "$proved" ]; }

# Says once an hour that the build isn't proved.
tell_standing() {
    told=$home/out/told
    [ -w "$home/out" ] || told=${XDG_CACHE_HOME:-$HOME/.cache}/nllc-told
    [ -z "$(find "$told" -mmin -60 2>/dev/null)" ] || return 0
    { mkdir -p "${told%/*}" && : >"$told"; } 2>/dev/null
    say "this build isn't proved, and is slow on large texts; $advice"
}

# Compiles a build that isn't proved, or waits until another run has done so, and prints this word and its path.
compile() {
    [ "$home" = "$here" ] || end 127 "there is no program in $home"
    python "$here/tools/compile_unproved.py" --asks "$self" --says "$1" --program "$unproved" "$here/crates/nllc" check
}

# Prints whether the program is proved, and its path; the process itself compiles, so that it ends with its parent.
print_which() {
    find_built || compile unproved
    is_proved && print_lines "proved $program" && return
    tell_standing
    print_lines "unproved $program"
}

# The program that answers: that of the variable NLLC, else the one that is current, which is compiled where there is none.
find_program() {
    if [ -n "$NLLC" ]; then
        program=$(command -v -- "$NLLC") || end 127 "there is no program $NLLC, which the variable NLLC names"
        unset NLLC
        return
    fi
    find_built || { (compile unproved) >/dev/null && find_built; } || exit 127
    is_proved && return
    tell_standing
    # Its stack frames are large: the deepest type takes more than the usual 8 MiB.
    ulimit -S -s 16384 2>/dev/null || :
}

commands() {
    cat <<END
$called has these commands of its own. Their programs are in frontend/, and aren't proved:
  $called rust FILE.rs|FOLDER         says why the borrow checker refuses functions; makes pages. FOLDER: a Cargo project
  $called facts FILE.rs|FOLDER        makes a facts text of each function
  $called mir FILE.rs|FOLDER          makes a MIR text of each function
  $called page FILE ..                makes a page of each facts text or MIR text
  $called json FILE ..                prints values and faults of each text for programs
  $called schedule FILE SCHEDULE      makes a page of a schedule, event by event
  $called explain FILE ..             says which token of a refused text is wrong, and why
  $called check|values FILE ..        answers several texts, with the file's name before each line
  $called help [COMMAND]              help, also of one command
  $called version                     which program this is, and whether it's proved
  $called --which                     prints whether the program is proved, and its path
END
    [ "$home" != "$here" ] ||
        printf '  %s\n' "$called gallery [FOLDER]            makes pages of the small functions of examples/gallery" \
            "$called --prove                     proves nllc and builds it; until then a slow build runs"
    cat <<END
A FILE of - is standard input, but for schedule. rust, facts, mir, page, json, schedule and explain have --help. All else
goes to nllc:

END
}

help() {
    case $1 in
        '') ;;
        rust | facts | mir | page | json | schedule | explain) frontend "$1" --help ;;
        check | values | replay)
            find_program
            "$program" "$1" --help || exit
            print_lines "" "Status 0: answered, and check found no fault; 1: check found a fault; 2: refused; 3: failed."
            exit
            ;;
        *) end 2 "there is no command $1; $called help names all" ;;
    esac
    find_program
    print_lines "$(commands)" ""
    exec "$program" --help
}

# The commit of the sources, and whether they were changed since.
commit() {
    [ "$home" = "$here" ] || { cat "$home/commit" && return; }
    git -C "$home" log -1 --format='%h of %cs' 2>/dev/null || { echo unknown && return; }
    git -C "$home" diff --quiet HEAD -- crates crates.txt frontend nllc.sh || echo "with changes"
}

# The kit that built the program, as its builder wrote it down, or the logic that a proved program names in itself.
kit() { cat "$program.kit" 2>/dev/null || grep -aom1 'logic=[0-9a-f]\{16\}' "$program" || echo unknown; }

version() {
    find_program
    case $program in
        "$proved") standing="is proved" ;;
        "$unproved") standing="isn't proved" ;;
        *) standing="the variable NLLC names" ;;
    esac
    sum=$(sha256sum "$program")
    print_lines "nllc, commit $(commit | paste -sd ' ')" "program: $program, which $standing" "kit: $(kit)" \
        "sha256: ${sum%% *}"
}

# Has the program refuse these arguments, and says on a line of its own which commands there are.
refuse() {
    find_program
    "$program" "$@"
    status=$?
    say "there is no command $1; further commands are rust, facts, mir, page, json, schedule, explain, help and version"
    exit "$status"
}

# Notes an option and its value, and is true unless the program refuses them for certain.
note_option() {
    case " $options " in *" ${1%%=*} "*) return 1 ;; esac
    options="$options ${1%%=*}"
    case $1 in
        --owners=[1-9] | --owners=[1-5][0-9] | --owners=6[0-4] | --deal=round | --deal=blocks) ;;
        --mail=queue | --mail=ring | --cut=* | --schedule=*) ;;
        *) return 1 ;;
    esac
}

# Whether these options and the command fit together.
are_fitting() {
    case $options in *--deal*--cut* | *--cut*--deal*) return 1 ;; esac
    case $1$options in
        replay*--mail*) return 1 ;;
        replay*--schedule*) ;;
        replay* | *--schedule*) return 1 ;;
    esac
}

# Has the program answer a command, if its arguments are one FILE and right options. Otherwise the frontend makes several
# calls, or has the program refuse them and says what is wrong.
answer() {
    find_program
    left=$# files=-1 wants='' ended='' form=plain options='' command=$1    # the command itself isn't counted
    while [ "$left" -gt 0 ]; do
        word=$1 left=$((left - 1))
        shift
        case $ended$word in
            - | ./-) word=/dev/stdin ;;
            --cut=- | --schedule=-) word=${word%-}/dev/stdin ;;
        esac
        if [ "$wants" ]; then
            note_option "$wants=$word" || form=other
            wants=''
        else
            case $ended$word in
                --owners | --deal | --cut | --mail | --schedule) wants=$word ;;
                --owners=* | --deal=* | --cut=* | --mail=* | --schedule=*) note_option "$word" || form=other ;;
                --help | -h) form=help ;;
                --) ended=./ ;;
                -* | *.rs) form=other ;;
                *) files=$((files + 1)) ;;
            esac
        fi
        set -- "$@" "$word"
    done
    if [ "$form" = plain ]; then
        [ -z "$wants" ] && are_fitting "$command" || form=other
    fi
    case $form$files in
        plain1 | help*) exec "$program" "$@" ;;
    esac
    command -v python3 >/dev/null || exec "$program" "$@"
    export NLLC="$program"
    frontend words "$@"
}

case $1 in
    rust | facts | mir | page | json | schedule | explain) frontend "$@" ;;
    gallery)
        [ "$home" = "$here" ] || end 2 "an installed copy has no examples: do that in the repository"
        frontend "$@"
        ;;
    check | values | replay) answer "$@" ;;
    help) [ "$#" -le 2 ] || end 2 "help takes one COMMAND, or none" && help "$2" ;;
    --help | -h) help ;;
    version | --version | --prove | --built | --which) [ "$#" = 1 ] || end 2 "$1 takes no argument" ;;
    '') find_program && commands >&2 && exec "$program" "$@" ;;
esac
case $1 in
    version | --version) version ;;
    --built) find_built && print_lines "$program" ;;
    --which) print_which ;;
    --prove)
        [ "$home" = "$here" ] || end 2 "an installed copy proves nothing: do that in the repository, and install again"
        say "proving the program and what it stands on takes some 35 minutes on four processors;" \
            "$here/out/prove.log has what rt prints"
        python "$here/tools/prove.py"
        ;;
    *) refuse "$@" ;;
esac
