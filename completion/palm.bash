# Completion of palm and palm-script for bash.

_palm() {
    local word="${COMP_WORDS[COMP_CWORD]}"
    case "$COMP_CWORD:${COMP_WORDS[1]-}" in
    1:*) mapfile -t COMPREPLY < <(compgen -W 'run check proof gen' -- "$word") ;;
    2:gen) mapfile -t COMPREPLY < <(compgen -W '1 2 3 4 5 6 7 8 9 10 11 12 13 14 15 16' -- "$word") ;;
    *) COMPREPLY=() ;;
    esac
}
complete -F _palm palm ./palm ./preview

_palm_script() {
    local word="${COMP_WORDS[COMP_CWORD]}"
    compopt -o filenames 2>/dev/null
    mapfile -t COMPREPLY < <(
        compgen -d -- "$word"
        compgen -f -X '!*.palm' -- "$word"
    )
    [[ "$word" != -* ]] || COMPREPLY=(-v)
}
complete -F _palm_script palm-script
