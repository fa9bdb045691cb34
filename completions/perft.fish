complete -c perft -f
complete -c perft -s h -l help -d 'print help'
complete -c perft -s V -l version -d 'print version'
