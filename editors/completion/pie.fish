# Completion of pie's commands for fish: a copy in ~/.config/fish/completions.
set -l commands check fresh build replay demo topdown scan auto cached
set -l json fresh build replay topdown
complete -c pie -f
complete -c pie -n "not __fish_seen_subcommand_from $commands" -a "$commands"
complete -c pie -n "__fish_seen_subcommand_from $json" -l json -d 'print the report as a line of JSON'
