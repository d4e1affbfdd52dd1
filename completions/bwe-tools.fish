# Completion of bwe-tools for fish: put this file into a folder vendor_completions.d or
# ~/.config/fish/completions/
# The tool itself says what may come, so this file stays as it is when commands are added.

function __bwe_tools_complete
    set -l tool (commandline -cpo)[1]
    for answer in (COMP_WORDS=(commandline -cp) COMP_CWORD=(commandline -t) \
            _BWE_TOOLS_COMPLETE=fish_complete $tool 2>/dev/null)
        set -l parts (string split "," $answer)
        switch $parts[1]
            case plain
                echo $parts[2]
            case dir
                __fish_complete_directories (commandline -t)
            case file
                __fish_complete_path (commandline -t)
        end
    end
end

complete -c bwe-tools -f -a "(__bwe_tools_complete)"
# Documents and tables are files.
complete -c bwe-tools -n "test (count (commandline -cpo)) -gt 1" -F
