# Completion of pie-inspect's commands for fish: a copy in ~/.config/fish/completions.
set -l commands check why tasks who graph store doctor help --help --version
complete -c pie-inspect -f
complete -c pie-inspect -n "not __fish_seen_subcommand_from $commands" -a "$commands"
complete -c pie-inspect -n "__fish_seen_subcommand_from who" -F
complete -c pie-inspect -n "__fish_seen_subcommand_from help" -a "$commands"
complete -c pie-inspect -n "__fish_seen_subcommand_from why" -a "--json"
complete -c pie-inspect -n "__fish_seen_subcommand_from graph" -a "--dot --json"
