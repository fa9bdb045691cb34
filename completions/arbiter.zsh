#compdef arbiter
_arguments \
    '(- :)'{-h,--help}'[print help]' \
    '(- :)'{-V,--version}'[print version]' \
    '--findings[only games that have a finding, or cannot be read]' \
    '--format[the form of a row]:form:(csv jsonl)' \
    '--letters[the letters of king, queen, rook, bishop and knight in the games, as KDTLS]:letters:' \
    '--progress[bytes and games so far, once a second]'
