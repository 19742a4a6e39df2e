# Completion of edgebpf and its companions for bash.
_edgebpf() {
    local word=${COMP_WORDS[COMP_CWORD]} before=${COMP_WORDS[COMP_CWORD - 1]} options
    case "$before" in
    --workers) COMPREPLY=($(compgen -W "$(seq 1 16)" -- "$word")) && return ;;
    --reduce) COMPREPLY=($(compgen -W "min max sum" -- "$word")) && return ;;
    esac
    case "$word" in
    -*)
        # each program lists its options in its help
        options=$("${COMP_WORDS[0]}" --help 2>&1 | grep -o -- '--[a-z-]*' | sort -u)
        COMPREPLY=($(compgen -W "$options" -- "$word"))
        ;;
    *) mapfile -t COMPREPLY < <(compgen -f -- "$word") ;;
    esac
}
complete -o filenames -F _edgebpf edgebpf edgebpf-c edgebpf-explain edgebpf-import edgebpf-shell edgebpf-spread
