# Completes the words of itv. The options and jobs are those of its help, so a new one needs no change here. Where nothing fits, bash completes
# the names of files.
# shellcheck disable=SC2207
_itv() {
    local word=${COMP_WORDS[COMP_CWORD]} before=${COMP_WORDS[COMP_CWORD - 1]} help jobs options
    help=$(ITV_QUIET=1 "${COMP_WORDS[0]}" --help 2>/dev/null) || return
    jobs=$(sed -n '/^Jobs:$/,/^$/s/^  \([a-z][a-z]*\) .*/\1/p' <<<"$help")
    options=$(sed -n 's/^ *\(-h, \)\{0,1\}\(--[a-z]*\).*/\2/p' <<<"$help")
    COMPREPLY=()
    case "$before $word" in
        '--job '*) COMPREPLY=($(compgen -W "$jobs" -- "$word")) ;;
        '-C '*) COMPREPLY=($(compgen -d -- "$word")) ;;
        *' -'*) COMPREPLY=($(compgen -W "$options -C --version --which" -- "$word")) ;;
        *) [ "$COMP_CWORD" -ne 1 ] || COMPREPLY=($(compgen -W "$jobs" -- "$word")) ;;
    esac
}
complete -o bashdefault -o default -F _itv itv
