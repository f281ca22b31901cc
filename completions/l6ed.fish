# Completes the words of l6ed in fish.

complete -c l6ed -f
complete -c l6ed -s h -l help -d 'Print help'
complete -c l6ed -s V -l version -d 'Print the version'
complete -c l6ed -n __fish_use_subcommand -a lsp -d 'Answer as a language server'
complete -c l6ed -n __fish_use_subcommand -a dap -d 'Answer as a debug adapter'
