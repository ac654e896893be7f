# Completion of the words of abs for fish: put this file into ~/.config/fish/completions.

complete -c abs -f
complete -c abs -l check -d 'analyse alone, and do not run'
complete -c abs -l trace -d 'print the task of each event after the run'
complete -c abs -l workers -x -a '(seq 16)' -d 'how many workers evaluate'
complete -c abs -l depth -x -a '1 2 3' -d 'how many places the name of a cog keeps'
complete -c abs -l steps -x -d 'how many events the run may have, up to 10,000,000'
complete -c abs -l facts -x -d 'how many facts may be derived, up to 4,000,000'
complete -c abs -l make -x -d 'run the generated program of so many classes, up to 2,000'
complete -c abs -n 'not __fish_contains_opt make' -k -a '(__fish_complete_suffix .abs)'
