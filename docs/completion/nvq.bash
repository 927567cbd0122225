# Completes the words of nvq in bash. Derived from docs/help by examples/manuals.py; examples/helps.py --derive writes it.
_nvq() {
    local IFS=$' \t\n' word=${COMP_WORDS[COMP_CWORD]} before=${COMP_WORDS[COMP_CWORD - 1]} options='' valued=''
    COMPREPLY=()
    if [ "$COMP_CWORD" -eq 1 ] || [ "${COMP_WORDS[1]}" = help ]; then
        COMPREPLY=($(compgen -W "run generate assemble trace list audit witness certify explain help -h --help -V --version" -- "$word"))
        return
    fi
    case ${COMP_WORDS[1]} in
    run)
        options="--nsze --block --nabsn --nabo --nawun --nacwu --workers --limit --record --check --json -h --help"
        valued="--nsze --block --nabsn --nabo --nawun --nacwu --workers --limit --record"
        ;;
    generate)
        options="--seed --commands --nsze --block --nabsn --nabo --nawun --nacwu --write --read --compare --pair --zeroes --uncorrectable --deallocate -h --help"
        valued="--seed --commands --nsze --block --nabsn --nabo --nawun --nacwu --write --read --compare --pair --zeroes --uncorrectable --deallocate"
        ;;
    assemble)
        options="--block -h --help"
        valued="--block"
        ;;
    trace)
        options="-h --help"
        valued=""
        ;;
    list)
        options="--block --json -h --help"
        valued="--block"
        ;;
    audit)
        options="--json --all -h --help"
        valued=""
        ;;
    witness)
        options="--strict -h --help"
        valued=""
        ;;
    certify)
        options="--evidence --effort --reads --deallocated --data --json -h --help"
        valued="--evidence --effort --reads --deallocated"
        ;;
    explain)
        options="--strict -h --help"
        valued=""
        ;;
    esac
    # Where nothing is answered bash takes files: for an argument, and for what an option wants.
    case " $valued " in
    *" $before "*) return ;;
    esac
    case $word in
    -*) COMPREPLY=($(compgen -W "$options" -- "$word")) ;;
    esac
}
complete -o default -F _nvq nvq
