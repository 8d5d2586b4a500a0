# Completions of pp6600 and its tools for bash.

# Completes the word after an option that both have; fails if the word before is none.
_pp6600_value() {
    local word=${COMP_WORDS[COMP_CWORD]}
    case ${COMP_WORDS[COMP_CWORD - 1]} in
        # the values of options
        --deck | --panel | --program | --other-deck | --other-panel | --save) mapfile -t COMPREPLY < <(compgen -f -- "$word") ;;
        *) [[ ${COMP_WORDS[COMP_CWORD - 2]:-} == --s@(ymbols|ource) ]] || return 1
            mapfile -t COMPREPLY < <(compgen -f -- "$word") ;;
    esac
}

# The options are those that --help prints; they are asked for once.
declare -A _pp6600_options
_pp6600_option() {
    local command=${COMP_WORDS[0]} word=${COMP_WORDS[COMP_CWORD]}
    if [ -z "${_pp6600_options[$command]:-}" ]; then
        _pp6600_options[$command]=$({ echo --help; "$command" --help 2>/dev/null; } </dev/null |
            grep -oE -- '--[a-z][a-z-]*' | sort -u)
    fi
    mapfile -t COMPREPLY < <(compgen -W "${_pp6600_options[$command]}" -- "$word")
}

_pp6600() {
    local word=${COMP_WORDS[COMP_CWORD]}
    _pp6600_value && return
    case $word in
        -*) _pp6600_option ;;
        *) mapfile -t COMPREPLY < <(compgen -f -- "$word") ;;
    esac
}
mapfile -t COMPREPLY < <(compgen -c pp6600-)
complete -o filenames -F _pp6600 pp6600 "${COMPREPLY[@]}"
COMPREPLY=()
