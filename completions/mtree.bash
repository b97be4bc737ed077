# Completion for mtree: its four words.
_mtree() {
    COMPREPLY=()
    [ "$COMP_CWORD" -eq 1 ] && mapfile -t COMPREPLY < <(compgen -W 'run race make demo' -- "${COMP_WORDS[1]}")
}
complete -F _mtree mtree
