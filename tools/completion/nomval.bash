# Completion of nomval's commands, options and files, for bash.
_nomval() {
    local word=${COMP_WORDS[COMP_CWORD]} before=${COMP_WORDS[COMP_CWORD-1]}
    local commands='solve solve-flat replay replay-flat check check-flat flat make' options=
    COMPREPLY=()
    if [ "$COMP_CWORD" -eq 1 ]; then
        COMPREPLY=($(compgen -W "$commands help --help --version" -- "$word"))
        return
    fi
    case $before in
    --tol) COMPREPLY=($(compgen -W '0 100000000' -- "$word")); return ;;
    --boxes) COMPREPLY=($(compgen -W '256 1024 4096 16384' -- "$word")); return ;;
    esac
    case ${COMP_WORDS[1]} in
    solve | solve-flat) options='--tol --boxes' ;;
    replay | replay-flat) options='--tol' ;;
    help) COMPREPLY=($(compgen -W "$commands" -- "$word")); return ;;
    esac
    case $word in
    -*) COMPREPLY=($(compgen -W "$options" -- "$word")) ;;
    *) compopt -o filenames 2>/dev/null; COMPREPLY=($(compgen -f -- "$word")) ;;
    esac
    case "${COMP_WORDS[1]} $COMP_CWORD" in
    'solve 4' | 'replay 4' | 'check 4' | 'flat 4') COMPREPLY+=($(compgen -W none -- "$word")) ;;
    esac
}
complete -F _nomval nomval
