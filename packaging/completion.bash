# Completion of hags and hagsctl in bash.
_hags() {
    local word=${COMP_WORDS[COMP_CWORD]} before=${COMP_WORDS[COMP_CWORD - 1]} command=${COMP_WORDS[1]} words=
    if [ "$COMP_CWORD" = 1 ]; then
        words='run load daemon status client table --help --version'
    else
        case $before in
            --kinds) words='up down ring in base put heard cast asked told noted refused show' ;;
            --node) words=$(seq 1 32) ;;
            --inc | --turns | --key | --silence | --mend | --gap) return ;;
            *)
                case $command in
                    run) words='--kinds' ;;
                    daemon) words='--node --inc --turns --lasting --remote --entries --silence --mend --gap' ;;
                    status) words='hats hagsns hagsgr hagsvote hagscl hagsd --node --turns' ;;
                    client) words='--node --turns --key' ;;
                esac
                [ "$COMP_CWORD" != 2 ] || words="$words --help --version"
                ;;
        esac
    fi
    mapfile -t COMPREPLY < <(compgen -W "$words" -- "$word")
}
complete -o default -F _hags hags

_hagsctl() {
    local word=${COMP_WORDS[COMP_CWORD]} before=${COMP_WORDS[COMP_CWORD - 1]} words=
    case $before in
        --settings) return ;;
        --node) words=$(seq 1 32) ;;
        *) words='status check clients members watch get set lock elect expel --settings --node --seconds --wait --json --help' ;;
    esac
    mapfile -t COMPREPLY < <(compgen -W "$words" -- "$word")
}
complete -o default -F _hagsctl hagsctl
