# Completions of metroheap for bash. scripts/options makes them of the table of options.
_metroheap() {
    local word=${COMP_WORDS[COMP_CWORD]} options=
    case ${COMP_WORDS[COMP_CWORD - 1]} in
        # A number or a text follows.
        --workers | --from | --to | --pages | --quantum | --trigger | --every | --seed | --events | --controls | --longest | --keeps | --window | --used | --rate | --parts | --quanta | --target) return ;;
        --rules)
            mapfile -t COMPREPLY < <(compgen -W '1 2' -- "$word")
            return
            ;;
        --profile)
            mapfile -t COMPREPLY < <(compgen -W 'churn lists trees wide large frag refusals barriers comb fans race cycles mixed' -- "$word")
            return
            ;;
    esac
    # Here a number follows, as it doesn't after the `--sessions` of another.
    [[ ${COMP_WORDS[1]} == generate && ${COMP_WORDS[COMP_CWORD - 1]} == --sessions ]] && return
    case ${COMP_WORDS[1]} in
        run) options='--workers --rules --history --help' ;;
        steps) options='--from --to --json --chrome --rules --help' ;;
        cycles) options='--rules --help' ;;
        show) options='--from --to --rules --help' ;;
        live) options='--workers --world --help' ;;
        race) options='--workers --help' ;;
        check) options='--pages --quantum --trigger --every --rules --sessions --no-full --log --help' ;;
        audit) options='--help' ;;
        migrate) options='--pages --quantum --trigger --every --help' ;;
        generate) options='--seed --events --sessions --pages --quantum --trigger --every --profile --controls --rules --help' ;;
        curve) options='--rules --history --pauses --svg --every --quantum --longest --keeps --help' ;;
        size) options='--rules --window --used --every --rate --parts --quanta --quantum --target --help' ;;
        *) options='run steps cycles show live race check audit migrate generate curve size --help --version' ;;
    esac
    mapfile -t COMPREPLY < <(compgen -W "$options" -- "$word")
}
complete -F _metroheap metroheap
