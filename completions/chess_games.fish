complete -c chess_games -f
complete -c chess_games -l part -x -d 'every N-th game alone, from game K, as 1/4'
complete -c chess_games -l cut -x -d 'copy the input, cut into pieces of at least so many bytes'
complete -c chess_games -l totals -d 'the number of games, of bytes and of those passed over, on the standard error'
complete -c chess_games -l salvage -d "repair games that can't be read, with a line on the standard error for each repair"
complete -c chess_games -l letters -x -d 'with --salvage, the letters of king, queen, rook, bishop and knight in the games, as KDTLS'
complete -c chess_games -l format -x -a 'pgn positions positions-jsonl' -d 'the form of good games'
complete -c chess_games -l columns -x -d 'the columns of the rows in this order, as ply,san,key'
complete -c chess_games -l progress -d 'bytes and games so far, once a second'
complete -c chess_games -s h -l help -d 'print help'
complete -c chess_games -s V -l version -d 'print version'
