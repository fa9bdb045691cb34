complete -c chess -f
complete -c chess -n __fish_is_first_arg -a board -d 'answers the lines of the standard input'
complete -c chess -n __fish_is_first_arg -a uci -d 'plays in a front end'
complete -c chess -n __fish_is_first_arg -a pgn -d 'writes the games of the standard input'
complete -c chess -s h -l help -d 'print help'
complete -c chess -s V -l version -d 'print version'
