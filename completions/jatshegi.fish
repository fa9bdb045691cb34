complete -c jatshegi -f
complete -c jatshegi -l record -r -F -d 'write each event of the session to a file'
complete -c jatshegi -s h -l help -d 'print help'
complete -c jatshegi -s V -l version -d 'print version'
