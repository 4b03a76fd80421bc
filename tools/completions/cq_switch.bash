# Completes the words of cq_switch in bash. Put it into ~/.local/share/bash-completion/completions/cq_switch, or source it.

# Completes a name of a file with this ending, or of a folder.
_cq_switch_files() {
    mapfile -t COMPREPLY < <(compgen -f -X "!*.$1" -- "$2"; compgen -d -- "$2")
    compopt -o filenames 2>/dev/null
}

_cq_switch() {
    local word=${COMP_WORDS[COMP_CWORD]}
    COMPREPLY=()
    if ((COMP_CWORD == 1)); then
        mapfile -t COMPREPLY < <(compgen -W 'audit check ideal part pass resume run soak stream' -- "$word")
        return
    fi
    case ${COMP_WORDS[1]}-$COMP_CWORD in
        audit-2 | check-2 | ideal-2 | part-2 | resume-2 | run-2 | stream-2) _cq_switch_files toml "$word" ;;
        part-4 | resume-3) mapfile -t COMPREPLY < <(compgen -f -- "$word"); compopt -o filenames 2>/dev/null ;;
        pass-2 | pass-3) _cq_switch_files pcap "$word" ;;
    esac
}

complete -F _cq_switch cq_switch
