# Completion of msrp_log in fish.
set -l commands audit why report state help
complete -c msrp_log -n "not __fish_seen_subcommand_from $commands" -f
complete -c msrp_log -n "not __fish_seen_subcommand_from $commands" -a audit -d 'judge a log'
complete -c msrp_log -n "not __fish_seen_subcommand_from $commands" -a why -d 'judge a log, and give the reason for a fault'
complete -c msrp_log -n "not __fish_seen_subcommand_from $commands" -a report -d 'judge a log, and count what a good one exercises'
complete -c msrp_log -n "not __fish_seen_subcommand_from $commands" -a state -d 'write the state before a record of a log'
complete -c msrp_log -n "not __fish_seen_subcommand_from $commands" -a help -d 'the commands, or the flags of one'
complete -c msrp_log -n '__fish_seen_subcommand_from audit why report state' -l op -x -d 'how long an operation on a resource takes'
complete -c msrp_log -n '__fish_seen_subcommand_from audit why report state' -l slack -x -d 'how long the kernel may take to react'
complete -c msrp_log -n '__fish_seen_subcommand_from audit why report state' -l skew -x -d 'how much the clocks of two cores may differ'
complete -c msrp_log -n '__fish_seen_subcommand_from audit why report state' -l tick -x -d 'how long a tick of the plan lasts'
complete -c msrp_log -n '__fish_seen_subcommand_from audit why report state' -l backlog -x -d 'how many jobs may be released and not ended'
complete -c msrp_log -n '__fish_seen_subcommand_from audit why state' -l begin -r -d 'the log goes on from this state'
complete -c msrp_log -n '__fish_seen_subcommand_from state' -l at -x -d 'the number of the record'
complete -c msrp_log -n '__fish_seen_subcommand_from help' -f -a 'audit why report state'
complete -c msrp_log -l help -s h -d 'print help'
