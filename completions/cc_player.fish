# Completion of cc_player's words for fish.
complete -c cc_player -f
complete -c cc_player -n __fish_use_subcommand -a step -d 'play a script in lockstep, write its recording'
complete -c cc_player -n __fish_use_subcommand -a play -d 'play a script by threads, write its recording'
complete -c cc_player -n __fish_use_subcommand -a film -d 'play a script in lockstep, write its pictures alone'
complete -c cc_player -n __fish_use_subcommand -a shot -d 'play a script in lockstep, write its last picture as a PNG file'
complete -c cc_player -n __fish_use_subcommand -a serve -d 'play scripts, one a line, and answer each'
complete -c cc_player -n __fish_use_subcommand -a frames -d 'write the pictures of a recording'
complete -c cc_player -n __fish_use_subcommand -a check -d 'judge a recording'
complete -c cc_player -n __fish_use_subcommand -a gen -d 'write the script of a number'
complete -c cc_player -n __fish_use_subcommand -a demo -d 'play the script of a number, sum up its recording'
complete -c cc_player -n __fish_use_subcommand -l help -d 'print the help'
complete -c cc_player -n __fish_use_subcommand -l version -d 'print the version'
complete -c cc_player -n '__fish_seen_subcommand_from step play film shot serve' -a '(seq 16)' -d 'raster workers'
