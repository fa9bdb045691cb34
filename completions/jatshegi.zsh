#compdef jatshegi
_arguments \
    '(- :)'{-h,--help}'[print help]' \
    '(- :)'{-V,--version}'[print version]' \
    '--record[write each event of the session to a file]:file:_files'
