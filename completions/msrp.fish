# Completion of msrp in fish.
set -l commands sim run audit report check help
complete -c msrp -n "not __fish_seen_subcommand_from $commands" -f
complete -c msrp -n "not __fish_seen_subcommand_from $commands" -a sim -d 'the trace of the run on one thread'
complete -c msrp -n "not __fish_seen_subcommand_from $commands" -a run -d 'the trace of a thread for each core'
complete -c msrp -n "not __fish_seen_subcommand_from $commands" -a audit -d 'judge a trace'
complete -c msrp -n "not __fish_seen_subcommand_from $commands" -a report -d 'what each task met in a legal trace'
complete -c msrp -n "not __fish_seen_subcommand_from $commands" -a check -d 'preemption levels and ceilings'
complete -c msrp -n "not __fish_seen_subcommand_from $commands" -a help -d 'the commands, or the flags of one'
complete -c msrp -n '__fish_seen_subcommand_from sim' -l order -x -a 'asc desc rot' -d 'the order of the cores in each tick'
complete -c msrp -n '__fish_seen_subcommand_from sim run' -l ahead -d 'tell how many are ahead of each request'
complete -c msrp -n '__fish_seen_subcommand_from audit' -l parallel -d 'judge in a second way, to check a verdict'
complete -c msrp -n '__fish_seen_subcommand_from check' -l text -d 'write the plan itself'
complete -c msrp -n '__fish_seen_subcommand_from help' -f -a 'sim run audit report check'
complete -c msrp -l help -s h -d 'print help'
