# Completion of cc_player's words for bash.
_cc_player() {
    local word=${COMP_WORDS[COMP_CWORD]}
    COMPREPLY=()
    case $COMP_CWORD in
        1) mapfile -t COMPREPLY < <(compgen -W 'step play film shot serve frames check gen demo --help --version' -- "$word") ;;
        2)
            case ${COMP_WORDS[1]} in
                step | play | film | shot | serve) mapfile -t COMPREPLY < <(compgen -W "$(seq 16)" -- "$word") ;;
            esac
            ;;
    esac
}
complete -F _cc_player cc_player
