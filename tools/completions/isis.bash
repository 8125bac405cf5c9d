# Completions of isis for bash, of the program and of its launcher ./isis.
_isis() {
    local first=1 words="lab walk trace timeline losses merge weave grid show routes routes6 alternates state daemon"
    if [ "$COMP_CWORD" -gt 1 ] && [ "${COMP_WORDS[1]}" = --unproved ]; then
        first=2
        words="lab walk trace timeline losses merge weave grid show routes routes6 alternates state"
    # The launcher is a script, and knows some words more.
    elif [ "$(head -c 2 "$(type -P "$1")" 2> /dev/null | tr -d '\0')" = '#!' ]; then
        words+=" daemon-next --help --version --unproved"
    fi
    if [ "$COMP_CWORD" = $((first + 1)) ] && [ "${COMP_WORDS[first]}" = grid ]; then
        words="1 2 3 4 5 6 7 8"
    elif [ "$COMP_CWORD" = $((first + 1)) ] && [ "${COMP_WORDS[first]}" = show ]; then
        words="long"
    elif [ "$COMP_CWORD" = $((first + 1)) ] && [ "${COMP_WORDS[first]}" = losses ]; then
        words="1 2 3 4 5 6 7 8 9"
    elif [ "$COMP_CWORD" = $((first + 1)) ] && [[ ${COMP_WORDS[first]} =~ ^(routes|routes6|alternates)$ ]]; then
        words="L1 L2"
    elif [ "$COMP_CWORD" -gt "$first" ] && [ "${COMP_WORDS[first]}" = state ]; then
        words="--boot --entry"
    elif [ "$first" = 1 ] && [ "$COMP_CWORD" -gt 1 ] && [ "${COMP_WORDS[1]}" = daemon ]; then
        words="--boot --turns"
    elif [ "$first" = 1 ] && [ "$COMP_CWORD" = 2 ] && [ "${COMP_WORDS[1]}" = daemon-next ]; then
        mapfile -t COMPREPLY < <(compgen -f -- "${COMP_WORDS[COMP_CWORD]}")
        return
    elif [ "$first" = 1 ] && [ "$COMP_CWORD" -gt 2 ] && [ "${COMP_WORDS[1]}" = daemon-next ]; then
        words="--turns --journals"
    elif [ "$COMP_CWORD" = 2 ] && [[ $words == *--help* && ${COMP_WORDS[2]} == -* ]]; then
        words="--help"
    elif [ "$COMP_CWORD" != "$first" ]; then
        words=
    fi
    mapfile -t COMPREPLY < <(compgen -W "$words" -- "${COMP_WORDS[COMP_CWORD]}")
}
complete -F _isis isis
