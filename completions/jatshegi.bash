# Completion of the words of jatshegi.
_jatshegi() {
    case $3 in
    --record) mapfile -t COMPREPLY < <(compgen -f -- "$2") ;;
    *) mapfile -t COMPREPLY < <(compgen -W '--record --help --version' -- "$2") ;;
    esac
}
complete -F _jatshegi jatshegi
