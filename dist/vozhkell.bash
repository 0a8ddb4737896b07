# Completions of bash for vozhkell.
_vozhkell() {
    COMPREPLY=()
    [ "$COMP_CWORD" = 1 ] && mapfile -t COMPREPLY < <(compgen -W 'replay run gen groups check record certify' -- "$2")
}
complete -o default -F _vozhkell vozhkell
