# Completion of bwe-live for bash: source this file, or put it as bwe-live into
# ~/.local/share/bash-completion/completions/

_bwe_live() {
    local word=${COMP_WORDS[COMP_CWORD]}
    COMPREPLY=()
    [ "$COMP_CWORD" -eq 1 ] || return
    if [[ $word = -* ]]; then
        mapfile -t COMPREPLY < <(compgen -W "--help --version" -- "$word")
        return
    fi
    compopt -o filenames 2>/dev/null
    mapfile -t COMPREPLY < <(compgen -f -- "$word")
}

complete -F _bwe_live bwe-live
