# Completion of the words of chess_games.
_chess_games() {
    case $3 in
    --format) mapfile -t COMPREPLY < <(compgen -W 'pgn positions positions-jsonl' -- "$2") ;;
    *) mapfile -t COMPREPLY < <(compgen -W '--part --cut --totals --salvage --letters --format --columns --progress --help --version' -- "$2") ;;
    esac
}
complete -F _chess_games chess_games
