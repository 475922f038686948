# Completes the command line of sysmem in fish.
set -l commands run threads explain draw check explore
complete -c sysmem -n __fish_use_subcommand -f
complete -c sysmem -n __fish_use_subcommand -a run -d 'Answers each line of a script'
complete -c sysmem -n __fish_use_subcommand -a threads \
    -d 'Runs the clients of a script side by side, and reports on them'
complete -c sysmem -n __fish_use_subcommand -a explain \
    -d 'Repeats each line with its reply, what its event forced, and why'
complete -c sysmem -n __fish_use_subcommand -a draw -d 'Draws the trees after the last line or an event'
complete -c sysmem -n __fish_use_subcommand -a check \
    -d "Compares the replies of a transcript with the machine's"
complete -c sysmem -n __fish_use_subcommand -a explore \
    -d "Searches all orders of the clients' steps, and reports the outcomes"
complete -c sysmem -n __fish_use_subcommand -a help -d 'Describes a command'
complete -c sysmem -n __fish_use_subcommand -s V -l version -d 'Names the version'
complete -c sysmem -s h -l help -d 'Describes the commands, or a command'
complete -c sysmem -n '__fish_seen_subcommand_from help' -f -a "$commands"
complete -c sysmem -n "__fish_seen_subcommand_from $commands" -l pages -x -d 'The number of pages of the pool'
complete -c sysmem -n '__fish_seen_subcommand_from threads' -l record -d 'Writes all events before the report'
complete -c sysmem -n '__fish_seen_subcommand_from threads' -l patient -d 'Repeats steps until their answer changes'
complete -c sysmem -n '__fish_seen_subcommand_from draw' -l format -x -a 'text dot svg' \
    -d 'The format of the picture'
complete -c sysmem -n '__fish_seen_subcommand_from explain' -l failures \
    -d 'Writes only the lines at which a node failed'
complete -c sysmem -n '__fish_seen_subcommand_from explain' -l summary \
    -d 'Says failures, held pages and waiting trackers at the end'
complete -c sysmem -n '__fish_seen_subcommand_from draw' -l at -x \
    -d 'The event after which the trees are drawn'
complete -c sysmem -n '__fish_seen_subcommand_from draw' -l line -x \
    -d 'The line after which the trees are drawn'
complete -c sysmem -n '__fish_seen_subcommand_from draw' -l failure -x \
    -d 'The event at which a node failed, from 1, after which the trees are drawn'
complete -c sysmem -n '__fish_seen_subcommand_from explore' -l once -d 'Makes each step once, as threads does'
complete -c sysmem -n '__fish_seen_subcommand_from explore' -l patient -d 'Each line waits that can'
complete -c sysmem -n '__fish_seen_subcommand_from explore' -l end \
    -d 'Each client vanishes once its steps are done'
complete -c sysmem -n '__fish_seen_subcommand_from explore' -l vanish -x \
    -d 'The clients that may vanish at any point'
complete -c sysmem -n '__fish_seen_subcommand_from explore' -l most -x -d 'The most clients that vanish early in one run'
complete -c sysmem -n '__fish_seen_subcommand_from explore' -l outcome -x \
    -d 'The outcome of which a schedule is written'
complete -c sysmem -n '__fish_seen_subcommand_from explore' -l states -x -d 'The most states that are searched'
complete -c sysmem -n '__fish_seen_subcommand_from explore' -l certify \
    -d 'Repeats every state, to certify that no outcome is missing'
complete -c sysmem -n '__fish_seen_subcommand_from explore' -l list -d 'Writes the report in lines for programs'
