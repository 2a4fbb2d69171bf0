# bash completion for impose and impose-pdf: commands, options, names of papers, files. No function of others is needed.

# The words that can stand in a place; `checks/options` compares them with `impose --help`.
_impose_commands='nup booklet zine cards stack notes poster select spec help'
_impose_papers='a0 a1 a2 a3 a4 a5 a6 a7 b0 b1 b2 b3 b4 b5 b6 c4 c5 c6 dl jisb4 jisb5 ra3 ra4 sra3 sra4 letter legal tabloid ledger statement executive folio quarto 10x14'
_impose_options_of() {
    local all='--paper --border --unguarded --replace --quiet --help -p -q -h'
    local sheet='--sheet'
    local parts='--odd --even --reverse'
    local shown='--plan --preview'
    local looks="--turn $shown"
    local row="--pages $parts"
    local numbers='--numbers --numbers-from'
    local laid="--margin --gap --trim --marks --rtl --scale --same-scale $numbers $row $looks"
    local cells="--order --turned $laid"
    case "$1" in
        '') echo '--help --version -h -V' ;;
        nup) echo "--skip $cells $sheet $all" ;;
        cards) echo "--skip $cells $sheet $all" ;;
        booklet) echo "--signature --creep --long-edge --cover $laid $sheet $all" ;;
        zine) echo "--same-scale --margin --gap --rtl $row $looks $sheet $all" ;;
        stack) echo "--duplex $cells $sheet $all" ;;
        notes) echo "--same-scale --margin --gap --trim $numbers $row $looks $sheet $all" ;;
        poster) echo "--scale --overlap --margin --marks $row $looks $sheet $all" ;;
        select) echo "$numbers $parts $looks $all" ;;
        spec) echo "--signature --print-spec $row $shown $sheet $all" ;;
        unbooklet) echo "--signature --rtl --scale --overlap --margin --marks --turn $row $sheet $all" ;;
    esac
}

# The command and the options that impose-pdf has besides.
_impose_commands_of_pdfs='unbooklet'
_impose_options_of_pdfs='--bleed --box --crop --each --each-right --over --password --stamp --suffix --text --under'

# The values of an option, if some can be offered; its status is 1 for one that takes none.
_impose_values_of() {
    case "$1" in
        --paper | --sheet | -p) echo "$_impose_papers" ;;
        --border) echo '.5pt 1pt .5mm' ;;
        --margin | --gap | --trim) echo '2mm 5mm 1cm' ;;
        --overlap) echo '5mm 1cm 2cm' ;;
        --skip) echo '1 2 3 4' ;;
        --order) echo 'right-down down-right left-down down-left' ;;
        --turned) echo 'left right' ;;
        --turn) echo "left right half wide${of_pdfs:+ left= right= half=}" ;;
        --scale) echo '0.5 0.7 1' ;;
        --marks) echo "fold cut fold,cut${of_pdfs:+ registration bars slug fold,cut,registration,bars,slug}" ;;
        --numbers) echo '8pt 10pt 12pt' ;;
        --numbers-from) echo '1 2 3' ;;
        --creep) echo '.5mm 1mm 2mm' ;;
        --signature) echo 'auto 4 8 12 16 20 24 28 32' ;;
        --pages | --preview | --each | --under | --over | --password) ;;
        --stamp) echo 'DRAFT COPY' ;;
        --text) echo 'foot: head: outer-foot: inner-foot: centre:' ;;
        --box) echo 'art bleed crop media trim' ;;
        --bleed) echo '3mm 5mm .125in' ;;
        --suffix) echo '-booklet -sheets' ;;
        *) return 1 ;;
    esac
}

# The files whose names fit one of these patterns, and folders; if there is none, all files.
_impose_files() {
    local IFS=$'\n' pattern
    compopt -o filenames 2>/dev/null
    COMPREPLY=($(compgen -d -- "$cur"))
    for pattern; do COMPREPLY+=($(compgen -f -X "!$pattern" -- "$cur")); done
    [ ${#COMPREPLY[@]} != 0 ] || COMPREPLY=($(compgen -f -- "$cur"))
}

_impose() {
    local of_pdfs='' commands=$_impose_commands
    local cur=${COMP_WORDS[COMP_CWORD]} before=${COMP_WORDS[COMP_CWORD - 1]} command='' is_behind='' number=0 at word values
    local patterns=('*.[pP][sS]' '*.[eE][pP][sS]')
    if [ "${1##*/}" = impose-pdf ]; then
        of_pdfs=$_impose_options_of_pdfs commands+=" $_impose_commands_of_pdfs"
        patterns=('*.[pP][dD][fF]' '*.[jJ][pP][gG]' '*.[jJ][pP][eE][gG]' '*.[pP][nN][gG]')
    fi
    COMPREPLY=()
    # A specification with a colon comes as several words.
    [ "$before" != : ] && [ "$cur" != : ] || return 0
    # `--paper=a4` comes as three words, as does `left=5`, after which nothing can be offered.
    if [ "$cur" = = ]; then cur=''
    elif [ "$before" = = ] && [ "$COMP_CWORD" -gt 2 ]; then before=${COMP_WORDS[COMP_CWORD - 2]}
    fi
    [ "${COMP_WORDS[COMP_CWORD]}" != = ] && [ "${COMP_WORDS[COMP_CWORD - 1]}" != = ] || [ "${before:0:1}" = - ] || return 0
    # The command, how many words are its own, and whether two dashes stand before the one that is typed.
    for ((at = 1; at < COMP_CWORD; at++)); do
        word=${COMP_WORDS[at]}
        if [ "$word" = = ] || [ "$word" = : ]; then at=$((at + 1))
        elif [ -z "$is_behind" ] && [ "$word" = -- ]; then is_behind=yes
        elif [ -z "$is_behind" ] && [ "${word:0:1}" = - ] && [ "$word" != - ]; then
            if [ "$word" = --crop ]; then [[ ! ${COMP_WORDS[at + 1]} =~ ^(same|[0-9.]) ]] || at=$((at + 1))
            elif _impose_values_of "$word" >/dev/null; then [ "${COMP_WORDS[at + 1]}" = = ] || at=$((at + 1))
            fi
        elif [ -z "$command" ]; then command=$word
        else number=$((number + 1))
        fi
    done
    if [ -z "$is_behind" ] && [ "$before" = --preview ]; then
        _impose_files '*.svg'
    elif [ -z "$is_behind" ] && [[ $before == --under || $before == --over ]]; then
        _impose_files '*.[pP][dD][fF]'
    elif [ -z "$is_behind" ] && [ "$before" = --each ]; then
        compopt -o filenames 2>/dev/null
        COMPREPLY=($(compgen -d -- "$cur"))
    elif [ -z "$is_behind" ] && [ "$before" = --password ]; then
        compopt -o filenames 2>/dev/null
        COMPREPLY=($(compgen -f -- "$cur"))
    elif [ -z "$is_behind" ] && [ "$before" = --crop ] && COMPREPLY=($(compgen -W 'same same,5mm 5mm' -- "$cur")); then
        : # a margin, which may be left out
    elif [ -z "$is_behind" ] && values=$(_impose_values_of "$before"); then
        # The name of a paper goes on after a hyphen.
        [ "$values" != "$_impose_papers" ] || [ "${cur%%-*}" = "$cur" ] || values=${values// /-landscape }-landscape
        COMPREPLY=($(compgen -W "$values" -- "$cur"))
        [[ ${COMPREPLY[0]-} != *[:=] ]] || compopt -o nospace 2>/dev/null
    elif [ -z "$is_behind" ] && [ "${cur:0:1}" = - ]; then
        COMPREPLY=($(compgen -W "$(_impose_options_of "$command") ${command:+$of_pdfs}" -- "$cur"))
    elif [ -z "$command" ]; then
        COMPREPLY=($(compgen -W "$commands" -- "$cur"))
    else
        case "$command:$number" in
            help:0) COMPREPLY=($(compgen -W "$commands" -- "$cur")) ;;
            help:*) ;;
            nup:0 | cards:0 | stack:0) COMPREPLY=($(compgen -W '1 2 4 6 8 9 16 2x4' -- "$cur")) ;;
            notes:0) COMPREPLY=($(compgen -W '1 2 3 4' -- "$cur")) ;;
            poster:0) COMPREPLY=($(compgen -W 'auto 2x2 2x3 3x2 3x3 4x4 a0 a1 a2 a3 200%' -- "$cur")) ;;
            select:0 | spec:0) ;;
            *) _impose_files "${patterns[@]}" ;;
        esac
    fi
}

complete -F _impose impose impose-pdf
