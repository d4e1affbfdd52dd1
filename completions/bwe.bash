# Completion of bwe for bash: source this file, or put it as bwe into
# ~/.local/share/bash-completion/completions/

_bwe() {
    local word=${COMP_WORDS[COMP_CWORD]} before=${COMP_WORDS[COMP_CWORD-1]}
    local commands="solve check run make bulk audit tiers enforce estimate levels"
    local numbers=$((COMP_CWORD - 2))
    COMPREPLY=()
    if [ "$COMP_CWORD" -eq 1 ]; then
        mapfile -t COMPREPLY < <(compgen -W "$commands --help --version" -- "$word")
        return
    fi
    case ${COMP_WORDS[1]} in
        solve | check) [ "$numbers" -eq 0 ] && _bwe_files "$word" ;;
        audit | tiers | enforce) [ "$numbers" -le 1 ] && _bwe_files "$word" ;;
        levels) [ "$numbers" -eq 1 ] && _bwe_files "$word" ;;
        estimate) [ "$numbers" -ge 2 ] && [ "$numbers" -le 3 ] && _bwe_files "$word" ;;
        run)
            [[ $before = --readers || $before = --reads ]] && return
            if [[ $word = -* ]]; then
                mapfile -t COMPREPLY < <(compgen -W "--readers --reads" -- "$word")
            else
                _bwe_files "$word"
            fi
            ;;
    esac
}

_bwe_files() {
    compopt -o filenames 2>/dev/null
    mapfile -t COMPREPLY < <(compgen -f -- "$1")
}

complete -F _bwe bwe
