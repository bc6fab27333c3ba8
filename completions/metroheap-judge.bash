# Completions of metroheap-judge for bash.
_metroheap_judge() {
    local word=${COMP_WORDS[COMP_CWORD]} it
    # Behind `--` stands the program, with files.
    for it in "${COMP_WORDS[@]:1:COMP_CWORD-1}"; do
        [[ $it != -- ]] || return
    done
    case ${COMP_WORDS[COMP_CWORD - 1]} in
        # A file or a folder follows.
        --reference | --conformance | --script | --keep | --junit | --history) return ;;
        --protocol)
            mapfile -t COMPREPLY < <(compgen -W 'run live many' -- "$word")
            return
            ;;
        --profile)
            mapfile -t COMPREPLY < <(compgen -W 'churn lists trees wide large frag refusals mixed barriers comb fans cycles race' -- "$word")
            return
            ;;
    esac
    mapfile -t COMPREPLY < <(compgen -W '--exact --reference --protocol --mode --seconds --event-seconds --jobs --conformance --seeds --events --profile --script --findings --keep --shrink-runs --shrink-seconds --repeat --tap --junit --progress --threads --most-states --history --sessions --help --' -- "$word")
}
complete -o default -F _metroheap_judge metroheap-judge
