# Completes the words of delaunay.
_delaunay() {
    local word=${COMP_WORDS[COMP_CWORD]} all=()
    if [ "$COMP_CWORD" = 1 ]; then
        all=(COMMANDS --help --version)
    elif [ "${COMP_WORDS[COMP_CWORD - 1]}" = --grid ]; then
        all=(1 2 4 8 16)
    else
        case ${COMP_WORDS[1]} in
    # CASES
        esac
    fi
    mapfile -t COMPREPLY < <(compgen -W "${all[*]}" -- "$word")
}
complete -o default -F _delaunay delaunay
