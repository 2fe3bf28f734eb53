# Completes the words of sheet in fish. Files that end with .apl come first.
complete -c sheet -f
complete -c sheet -l check -d 'Report only errors and refusals'
complete -c sheet -l web -d 'Show the sheet in a browser'
complete -c sheet -l port -x -d 'The port of --web'
complete -c sheet -l headless -d 'Open no browser for --web'
complete -c sheet -l program -r -F -d 'Use this program instead of aplsheet'
complete -c sheet -l version -d 'Print the version'
complete -c sheet -s h -l help -d 'Print a help'
complete -c sheet -k -a '(__fish_complete_suffix .apl)'
complete -c sheet -a - -d 'Standard input'
