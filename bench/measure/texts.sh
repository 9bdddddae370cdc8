# Makes the texts that scripts measure solving on; a script reads this file by `.` once it has set `here`.

# make_families FOLDER "NAME ..": the text of each family, and of a chain by its points and regions (chain-POINTSxREGIONS).
make_families() {
    for family in $2; do
        case $family in
            chain-*) words="chain $(echo "${family#chain-}" | tr x ' ')" ;;
            *) words="family $family" ;;
        esac
        # The words are a command and its arguments.
        python3 "$here/../../check/fuzz/generate.py" $words > "$1/$family.facts"
    done
}

# make_refused FOLDER: each facts text of a folder once more, in its folder `refused`, with a last line that is refused.
make_refused() {
    mkdir -p "$1/refused"
    for text in "$1"/*.facts; do
        # The last line of a text is its `end`; a constraint at no point comes in its place.
        sed '$s/.*/constraint '"'static 'static"' 999999999/' "$text" > "$1/refused/${text##*/}"
    done
}
