# What bash completes behind `vdo`: a file, the commands, and the options of a command.

_vdo_options() {
    case $1 in
        format) echo --logical --slabs --slab-blocks --journal --index --slab-journal --height --nonce ;;
        grow) echo --logical --slabs ;;
        run) echo --schedule --depth --logical-zones --physical-zones ;;
        workload) echo --seed --requests --streams --schedule --depth --logical-zones --physical-zones ;;
        crash) echo --after --image --schedule --depth --logical-zones --physical-zones ;;
    esac
}

_vdo() {
    local word=${COMP_WORDS[COMP_CWORD]}
    COMPREPLY=()
    case $COMP_CWORD in
        1)
            compopt -o filenames
            mapfile -t COMPREPLY < <(compgen -f -- "$word")
            ;;
        2) ;;
        3)
            mapfile -t COMPREPLY < <(
                compgen -W 'format run workload crash recover force-rebuild grow audit status' -- "$word"
            )
            ;;
        *) mapfile -t COMPREPLY < <(compgen -W "$(_vdo_options "${COMP_WORDS[3]}")" -- "$word") ;;
    esac
}

complete -F _vdo vdo
