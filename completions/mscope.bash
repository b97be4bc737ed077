# Completion for mscope: its commands, their flags, files, and the address spaces of a script.
_mscope() {
    local word=${COMP_WORDS[COMP_CWORD]} before=${COMP_WORDS[COMP_CWORD - 1]} at flags='--json --help' files=()
    COMPREPLY=()
    if [ "$COMP_CWORD" -eq 1 ]; then
        mapfile -t COMPREPLY < <(compgen -W 'why lint diff slots draw explain import check --help --version' -- "$word")
        return
    fi
    case ${COMP_WORDS[1]} in
    draw) flags="$flags --svg" ;;
    import) flags="$flags --space" ;;
    esac
    if [ "$before" = --space ]; then return; fi
    if [[ $word == -* ]]; then
        mapfile -t COMPREPLY < <(compgen -W "$flags" -- "$word")
        return
    fi
    for ((at = 2; at < COMP_CWORD; at++)); do
        if [[ ${COMP_WORDS[at]} != --* ]]; then files+=("${COMP_WORDS[at]}"); fi
    done
    case ${COMP_WORDS[1]}/${#files[@]} in
    why/1 | draw/1)
        mapfile -t COMPREPLY < <(compgen -W "$(sed -n 's/^[[:blank:]]*space[[:blank:]]\{1,\}\([^[:blank:]]*\).*/\1/p' "${files[0]}" 2>&-)" -- "$word")
        ;;
    why/2 | why/3) ;;
    explain/0)
        mapfile -t COMPREPLY < <(compgen -f -- "$word"; compgen -W 'byte word name number count place long' -- "$word"; compgen -W "$(printf 'F%d ' {1..20})" -- "$word")
        ;;
    *) mapfile -t COMPREPLY < <(compgen -f -- "$word") ;;
    esac
}
complete -o filenames -F _mscope mscope
