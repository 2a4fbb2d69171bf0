# bash completion for pstops: options, names of papers, files. No function of others is needed.

_pstops() {
    local cur=${COMP_WORDS[COMP_CWORD]} before=${COMP_WORDS[COMP_CWORD - 1]} is_behind='' number=0 at word IFS=$'\n'
    local value='^-[pwhdsjk]$'
    COMPREPLY=()
    # A specification with a colon comes as several words.
    [ "$before" != : ] && [ "$cur" != : ] || return 0
    for ((at = 1; at < COMP_CWORD; at++)); do
        word=${COMP_WORDS[at]}
        if [ "$word" = : ]; then at=$((at + 1))
        elif [ -z "$is_behind" ] && [ "$word" = -- ]; then is_behind=yes
        elif [ -z "$is_behind" ] && [[ $word =~ $value ]]; then at=$((at + 1))
        elif [ -n "$is_behind" ] || [ "${word:0:1}" != - ]; then number=$((number + 1))
        fi
    done
    if [ -z "$is_behind" ] && [ "$before" = -p ]; then
        COMPREPLY=($(compgen -W $'a3\na4\na5\nletter\nlegal\ntabloid\nstatement\n10x14' -- "$cur"))
    elif [ -z "$is_behind" ] && [[ $before =~ $value ]]; then
        return 0
    elif [ -z "$is_behind" ] && [ "${cur:0:1}" = - ]; then
        COMPREPLY=($(compgen -W $'-q\n-p\n-w\n-h\n-d\n-s\n-j\n-k' -- "$cur"))
    elif [ "$number" -gt 0 ]; then
        compopt -o filenames 2>/dev/null
        COMPREPLY=($(compgen -d -- "$cur") $(compgen -f -X '!*.[pP][sS]' -- "$cur"))
        [ ${#COMPREPLY[@]} != 0 ] || COMPREPLY=($(compgen -f -- "$cur"))
    fi
}

complete -F _pstops pstops
