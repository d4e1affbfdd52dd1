# Completion of bwe-tools for bash: source this file, or put it as bwe-tools into
# ~/.local/share/bash-completion/completions/
# The tool itself says what may come, so this file stays as it is when commands are added.

_bwe_tools() {
    local kind value
    COMPREPLY=()
    while IFS=, read -r kind value; do
        case $kind in
            plain) COMPREPLY+=("$value") ;;
            dir) compopt -o dirnames 2>/dev/null ;;
            file) compopt -o default 2>/dev/null ;;
        esac
    done < <(COMP_WORDS="${COMP_WORDS[*]}" COMP_CWORD=$COMP_CWORD _BWE_TOOLS_COMPLETE=bash_complete "$1" 2>/dev/null)
    # Documents and tables are files.
    [ ${#COMPREPLY[@]} -gt 0 ] || compopt -o default 2>/dev/null
}

complete -o nosort -F _bwe_tools bwe-tools
