# Completion of pfc and pfcwalk for fish: put this file into ~/.config/fish/completions.
for program in pfc pfcwalk
    complete -c $program -f
    complete -c $program -l help -d 'write a short help'
    complete -c $program -l version -d 'write the version'
    complete -c $program -l seed -x -d 'the seed of the picks and of random'
    complete -c $program -l unfair -d 'the process that acted last goes on while it is ready'
    complete -c $program -l limit -x -d 'the most actions'
    complete -c $program -l input -r -F -d 'the input'
    complete -c $program -l script -r -F -d 'the numbers of the processes in the order in which they act'
    complete -c $program -l list -d 'write the listing of the text'
    complete -c $program -a '(__fish_complete_suffix .pas; __fish_complete_suffix .pfc)'
end
complete -c pfc -l code -d 'write the code of the program'
complete -c pfc -l make -x -d 'run a made text'
complete -c pfcwalk -l trace -d 'write who acted'
complete -c pfcwalk -l races -d 'write what nothing orders'
