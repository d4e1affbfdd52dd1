# Completion of bwe-live for fish: put this file into a folder vendor_completions.d or
# ~/.config/fish/completions/

complete -c bwe-live -n "__fish_is_first_token" -F
complete -c bwe-live -n "not __fish_is_first_token" -f
complete -c bwe-live -s h -l help -d "What it reads and answers"
complete -c bwe-live -l version -d "The version, the kit, and what stands"
