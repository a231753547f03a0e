# Completion of flowc for bash: source this file, or put it where bash-completion looks.
_flowc() {
    local word=${COMP_WORDS[COMP_CWORD]} before=${COMP_WORDS[COMP_CWORD - 1]}
    COMPREPLY=()
    if [ "$COMP_CWORD" -eq 1 ]; then
        COMPREPLY=($(compgen -W "check build run list explain help --help --version" -- "$word"))
        return
    fi
    case $before in
        --observer | --steps) return ;;
        --under)
            COMPREPLY=($(compgen -f -- "$word"))
            return
            ;;
    esac
    case ${COMP_WORDS[1]}:$word in
        run:-*) COMPREPLY=($(compgen -W "--under --observer --steps --help" -- "$word")) ;;
        *:-*) COMPREPLY=($(compgen -W "--help" -- "$word")) ;;
        *) COMPREPLY=($(compgen -f -- "$word")) ;;
    esac
}
complete -o filenames -F _flowc flowc
