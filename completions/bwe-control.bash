# Completion of bwe-control for bash: source this file, or put it as bwe-control into
# ~/.local/share/bash-completion/completions/
# The tool itself says what may come, so this file stays as it is when commands are added.

_bwe_control() {
    local kind value
    COMPREPLY=()
    while IFS=, read -r kind value; do
        case $kind in
            plain) COMPREPLY+=("$value") ;;
            dir) compopt -o dirnames 2>/dev/null ;;
            file) compopt -o default 2>/dev/null ;;
        esac
    done < <(COMP_WORDS="${COMP_WORDS[*]}" COMP_CWORD=$COMP_CWORD _BWE_CONTROL_COMPLETE=bash_complete "$1" 2>/dev/null)
    # Documents and configurations are files.
    [ ${#COMPREPLY[@]} -gt 0 ] || compopt -o default 2>/dev/null
}

complete -o nosort -F _bwe_control bwe-control
