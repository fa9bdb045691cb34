# Completion of the words of chess.
_chess() {
    mapfile -t COMPREPLY < <(compgen -W 'board uci pgn --help --version' -- "$2")
}
complete -F _chess chess
