# Completes the words of l6 in fish.

set -l verbs asm list check run load renew debug trace
set -l first "not __fish_seen_subcommand_from $verbs help"
set -l stores "__fish_seen_subcommand_from run load debug trace; and not __fish_seen_subcommand_from help"
set -l traces "__fish_seen_subcommand_from trace; and not __fish_seen_subcommand_from help"
set -l runs "__fish_seen_subcommand_from run load debug; and not __fish_seen_subcommand_from help"

complete -c l6 -f
complete -c l6 -n $first -a asm -d 'Write the image of a deck'
complete -c l6 -n $first -a list -d 'Write the listing of a deck'
complete -c l6 -n $first -a check -d 'Say what is wrong with a deck'
complete -c l6 -n $first -a run -d 'Run a deck'
complete -c l6 -n $first -a load -d 'Run an image'
complete -c l6 -n $first -a renew -d 'Rewrite an image in the current version'
complete -c l6 -n $first -a debug -d 'Show the run of a deck, forward and back'
complete -c l6 -n $first -a trace -d "Answer the calls of an allocator's trace"
complete -c l6 -n $first -a help -d 'Print help'
complete -c l6 -n "__fish_seen_subcommand_from help" -a "$verbs"
complete -c l6 -s h -l help -d 'Print help'
complete -c l6 -n $first -s V -l version -d 'Print the version'
complete -c l6 -n "__fish_seen_subcommand_from check; and not __fish_seen_subcommand_from help" -l long \
    -d 'Show each card, with signs under its columns'
complete -c l6 -n "__fish_seen_subcommand_from check; and not __fish_seen_subcommand_from help" -l name -r \
    -d 'The name of the deck\'s file, for the beginning of each line'
complete -c l6 -n $stores -l store -x -d 'Units of 1024 words that the store has, 1 to 255'
complete -c l6 -n $runs -l steps -x -d 'Steps that the run may make, 0 to 1000000000'
complete -c l6 -n $runs -l output -x -d 'Bytes that the run may print, 0 to 16777216'
complete -c l6 -n "__fish_seen_subcommand_from run; and not __fish_seen_subcommand_from help" -l explain \
    -d 'Say on standard error where a trap was met, and why'
complete -c l6 -n $traces -l any-place -d 'Judge the answers, whatever the allocator\'s rule of choice'
complete -c l6 -n $traces -l levels -x -d 'The largest block has 2^K smallest pieces, 0 to 20'
complete -c l6 -n $traces -l units -x -d 'The allocator has so many of these, 1 to 16777216'
complete -c l6 -n $traces -l first -x -d 'Its first place, in smallest pieces; 2^K without this option'
complete -c l6 -n $traces -l piece -x -d 'Sizes and places are in bytes, and the smallest piece has so many'
complete -c l6 -n $traces -l json -d 'Write a JSON object for each finding, and one for the summary'
