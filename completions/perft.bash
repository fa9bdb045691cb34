# Completion of the words of perft.
_perft() {
    mapfile -t COMPREPLY < <(compgen -W '--help --version' -- "$2")
}
complete -F _perft perft
