# Completion of the tool mill for bash: its commands, their options, and files.
_mill() {
    local word=${COMP_WORDS[COMP_CWORD]} command=${COMP_WORDS[1]-} options=
    COMPREPLY=()
    if [ "$COMP_CWORD" -le 1 ]; then
        COMPREPLY=($(compgen -W "ask degree pair band order report assured entry find lab show thin add verify pin raw live import export help" -- "$word"))
        return
    fi
    case $command in
        ask) options='--assured --exit-code --json --help' ;;
        degree) options='--assured --exit-code --json --help' ;;
        pair) options='--exit-code --json --help' ;;
        band) options='--assured --exit-code --json --help' ;;
        order) options='--exit-code --json --help' ;;
        report) options='--assured --exit-code --each --csv --skip-refused --json --help' ;;
        assured) options='--mark --exit-code --json --help' ;;
        entry) options='--output --append --raw --force --json --help' ;;
        find) options='--raw --exit-code --json --help' ;;
        lab) options='--mark --exit-code --json --help' ;;
        show) options='--mark --json --help' ;;
        thin) options='--mark --output --raw --force --json --help' ;;
        add) options='--mark --json --help' ;;
        verify) options='--json --help' ;;
        pin) options='--json --help' ;;
        raw) options='--output --force --json --help' ;;
        live) options='--mark --output --force --json --help' ;;
        import) options='--output --force --delimiter --decimal --scale --time --columns --slopes --pieces --into --mark --json --help' ;;
        export) options='--output --force --json --help' ;;
    esac
    case $command:$word in
        *:-*) COMPREPLY=($(compgen -W "$options" -- "$word")) ;;
        help:*) COMPREPLY=($(compgen -W "ask degree pair band order report assured entry find lab show thin add verify pin raw live import export questions tins tables refusals" -- "$word")) ;;
        lab:*) [ "$COMP_CWORD" -gt 2 ] && COMPREPLY=($(compgen -f -- "$word")) || COMPREPLY=($(compgen -W 'ask degree pair' -- "$word")) ;;
        *) COMPREPLY=($(compgen -f -- "$word")) ;;
    esac
}
complete -o filenames -F _mill mill
