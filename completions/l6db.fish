# Completes the words of l6db in fish.

complete -c l6db -s h -l help -d 'Print help'
complete -c l6db -s V -l version -d 'Print the version'
complete -c l6db -l input -r -d 'The input of the run'
complete -c l6db -s x -r -d 'Commands to obey first'
complete -c l6db -l batch -d 'End after the commands of -x or of the job'
complete -c l6db -l echo -d 'Repeat each command before its answer'
complete -c l6db -l prompt -x -d 'The prompt, which is shown over a pipe, too'
complete -c l6db -l store -x -d 'Units of 1024 words that the store has, 1 to 255'
complete -c l6db -l steps -x -d 'Steps that the run may make, 0 to 1000000000'
complete -c l6db -l output -x -d 'Bytes that the run may print, 0 to 16777216'
