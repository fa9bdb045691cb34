complete -c arbiter -f
complete -c arbiter -l findings -d 'only games that have a finding, or cannot be read'
complete -c arbiter -l format -x -a 'csv jsonl' -d 'the form of a row'
complete -c arbiter -l letters -x -d 'the letters of king, queen, rook, bishop and knight in the games, as KDTLS'
complete -c arbiter -l progress -d 'bytes and games so far, once a second'
complete -c arbiter -s h -l help -d 'print help'
complete -c arbiter -s V -l version -d 'print version'
