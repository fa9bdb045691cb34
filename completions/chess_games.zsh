#compdef chess_games
_arguments \
    '(- :)'{-h,--help}'[print help]' \
    '(- :)'{-V,--version}'[print version]' \
    '--part[every N-th game alone, from game K, as 1/4]:part:' \
    '--cut[copy the input, cut into pieces of at least so many bytes]:bytes:' \
    '--totals[the number of games, of bytes and of those passed over, on the standard error]' \
    "--salvage[repair games that can't be read, with a line on the standard error for each repair]" \
    '--letters[with --salvage, the letters of king, queen, rook, bishop and knight in the games, as KDTLS]:letters:' \
    '--format[the form of good games]:form:(pgn positions positions-jsonl)' \
    '--columns[the columns of the rows in this order, as ply,san,key]:columns:' \
    '--progress[bytes and games so far, once a second]'
