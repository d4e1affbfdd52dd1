# Completion of bwe for fish: put this file into a folder vendor_completions.d or
# ~/.config/fish/completions/

set -l commands solve check levels run audit tiers estimate enforce make bulk
complete -c bwe -f
complete -c bwe -n "not __fish_seen_subcommand_from $commands" -a solve -d "The table of limits of a document"
complete -c bwe -n "not __fish_seen_subcommand_from $commands" -a check -d "Whether the closings of a document are right"
complete -c bwe -n "not __fish_seen_subcommand_from $commands" -a levels -d "What each group may have at a share"
complete -c bwe -n "not __fish_seen_subcommand_from $commands" -a run -d "Reporters, allocator and readers on threads"
complete -c bwe -n "not __fish_seen_subcommand_from $commands" -a audit -d "Whether a printed run is legal"
complete -c bwe -n "not __fish_seen_subcommand_from $commands" -a tiers -d "The table of strict tiers"
complete -c bwe -n "not __fish_seen_subcommand_from $commands" -a estimate -d "The table after estimates of what tasks sent"
complete -c bwe -n "not __fish_seen_subcommand_from $commands" -a enforce -d "What events do to regions that keep to posted tables"
complete -c bwe -n "not __fish_seen_subcommand_from $commands" -a make -d "A large document from three numbers"
complete -c bwe -n "not __fish_seen_subcommand_from $commands" -a bulk -d "The summary of such a document's table"
complete -c bwe -n "not __fish_seen_subcommand_from $commands" -s h -l help -d "The commands, each with an example"
complete -c bwe -n "not __fish_seen_subcommand_from $commands" -l version -d "The version, the kit, and what stands"
complete -c bwe -n "__fish_seen_subcommand_from solve check levels run audit tiers estimate enforce" -F
complete -c bwe -n "__fish_seen_subcommand_from run" -l readers -x -d "1 to 64 readers"
complete -c bwe -n "__fish_seen_subcommand_from run" -l reads -x -d "0 to 1000 reads of each"
