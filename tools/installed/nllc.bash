# Completion of nllc for bash.
_nllc() {
    local word=${COMP_WORDS[COMP_CWORD]} command=${COMP_WORDS[1]} before=${COMP_WORDS[COMP_CWORD - 1]} words=
    if [ "$COMP_CWORD" = 1 ]; then
        words="check values replay rust page json schedule facts mir explain help version --help --version"
    elif [ "$before" = --deal ]; then
        words="round blocks"
    elif [ "$before" = --mail ]; then
        words="queue ring"
    else
        case $command:$word in
            check:-* | values:-*) words="--owners --deal --cut --mail --help" ;;
            replay:-*) words="--schedule --owners --deal --cut --help" ;;
            rust:-*) words="-o -p --explain --all-points --from-mir --all-pages --open --edition --message-format --help" ;;
            page:-*) words="-o --open --help" ;;
            schedule:-*) words="-o --open --owners --deal --cut --help" ;;
            facts:-* | mir:-*) words="-o -p --edition --help" ;;
            explain:-* | json:-*) words="--help" ;;
            help:*) words="check values replay rust page json schedule facts mir explain" ;;
        esac
    fi
    mapfile -t COMPREPLY < <(compgen -W "$words" -- "$word")
}
complete -o default -F _nllc nllc
