#compdef perft
_arguments \
    '(- :)'{-h,--help}'[print help]' \
    '(- :)'{-V,--version}'[print version]'
