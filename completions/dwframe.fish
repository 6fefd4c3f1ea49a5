# Completion of dwframe for fish.

set -l all check rows at entries expr eval unwind normal same cost

complete -c dwframe -f
complete -c dwframe -s h -l help -d 'Print help'
complete -c dwframe -n "not __fish_seen_subcommand_from $all help" -s V -l version -d 'Print the version'

complete -c dwframe -n "not __fish_seen_subcommand_from $all help" -a check -d 'Tell whether a section is well formed'
complete -c dwframe -n "not __fish_seen_subcommand_from $all help" -a rows -d 'Print the rules at each address where they change'
complete -c dwframe -n "not __fish_seen_subcommand_from $all help" -a at -d 'Print the rules at some addresses'
complete -c dwframe -n "not __fish_seen_subcommand_from $all help" -a entries -d 'List the CIEs and FDEs'
complete -c dwframe -n "not __fish_seen_subcommand_from $all help" -a expr -d 'Print the operations of an expression'
complete -c dwframe -n "not __fish_seen_subcommand_from $all help" -a eval -d 'Print the value of an expression'
complete -c dwframe -n "not __fish_seen_subcommand_from $all help" -a unwind -d 'Print the caller\'s frame of a machine that stopped'
complete -c dwframe -n "not __fish_seen_subcommand_from $all help" -a normal -d 'Write the normal form'
complete -c dwframe -n "not __fish_seen_subcommand_from $all help" -a same -d 'Tell whether two sections mean the same'
complete -c dwframe -n "not __fish_seen_subcommand_from $all help" -a cost -d 'Print the bytes and rows of a section and its normal form'
complete -c dwframe -n "not __fish_seen_subcommand_from $all help" -a help -d 'Print the help of a subcommand'

complete -c dwframe -n "__fish_seen_subcommand_from help" -a "$all"
complete -c dwframe -n "__fish_seen_subcommand_from check rows at entries eval unwind normal same cost" -F
complete -c dwframe -n "__fish_seen_subcommand_from $all" -x -l size -a '4 8' -d 'Bytes of an address'
complete -c dwframe -n "__fish_seen_subcommand_from $all" -x -l order -a 'little big' -d 'Byte order'
complete -c dwframe -n "__fish_seen_subcommand_from expr" -l frame -d 'Only operations that a rule may hold'
complete -c dwframe -n "__fish_seen_subcommand_from eval unwind" -x -l steps -d 'Most operations'
complete -c dwframe -n "__fish_seen_subcommand_from eval" -x -l start -d 'Value on the stack'
complete -c dwframe -n "__fish_seen_subcommand_from unwind" -x -l default -a 'same undefined' -d 'A register without a rule'
complete -c dwframe -n "__fish_seen_subcommand_from normal" -x -l cap -d 'Most bytes'
