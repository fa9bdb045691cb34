# Completion of the words of arbiter.
_arbiter() {
    case $3 in
    --format) mapfile -t COMPREPLY < <(compgen -W 'csv jsonl' -- "$2") ;;
    *) mapfile -t COMPREPLY < <(compgen -W '--findings --format --letters --progress --help --version' -- "$2") ;;
    esac
}
complete -F _arbiter arbiter
