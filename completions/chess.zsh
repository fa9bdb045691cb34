#compdef chess
_arguments \
    '(- :)'{-h,--help}'[print help]' \
    '(- :)'{-V,--version}'[print version]' \
    ':engine:((board\:"answers the lines of the standard input" uci\:"plays in a front end" pgn\:"writes the games of the standard input"))'
