# Completes the words of nvmu in bash. Derived from docs/help by examples/manuals.py; examples/helps.py --derive writes it.
_nvmu() {
    local IFS=$' \t\n' word=${COMP_WORDS[COMP_CWORD]} before=${COMP_WORDS[COMP_CWORD - 1]} options='' valued=''
    COMPREPLY=()
    if [ "$COMP_CWORD" -eq 1 ] || [ "${COMP_WORDS[1]}" = help ]; then
        COMPREPLY=($(compgen -W "run audit witness refute help -h --help -V --version" -- "$word"))
        return
    fi
    case ${COMP_WORDS[1]} in
    run)
        options="--nsze --block --nabsn --nabo --nawun --nacwu --workers --limit --out -h --help"
        valued="--nsze --block --nabsn --nabo --nawun --nacwu --workers --limit --out"
        ;;
    audit)
        options="--json -h --help"
        valued=""
        ;;
    witness)
        options="--strict -h --help"
        valued=""
        ;;
    refute)
        options="-h --help"
        valued=""
        ;;
    esac
    # Where nothing is answered bash takes files: for an argument, and for what an option wants.
    case " $valued " in
    *" $before "*) return ;;
    esac
    case $word in
    -*) COMPREPLY=($(compgen -W "$options" -- "$word")) ;;
    esac
}
complete -o default -F _nvmu nvmu
