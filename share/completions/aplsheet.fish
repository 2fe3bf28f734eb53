# Completes the words of aplsheet in fish.
complete -c aplsheet -n __fish_use_subcommand -f -a run -d 'Answer the lines of a script or of standard input'
complete -c aplsheet -n __fish_use_subcommand -f -a table -d 'Read a table, and then answer lines'
complete -c aplsheet -n '__fish_seen_subcommand_from table' -l header -d 'Skip the titles in the first record of FILE'
complete -c aplsheet -s h -l help -d 'Print a help'
