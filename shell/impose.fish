# fish completion for impose and impose-pdf: commands, options, names of papers, files. `checks/completions` compares it with those for bash and zsh.

set -g __impose_papers a0 a1 a2 a3 a4 a5 a6 a7 b0 b1 b2 b3 b4 b5 b6 c4 c5 c6 dl jisb4 jisb5 ra3 ra4 sra3 sra4 letter legal tabloid ledger statement executive folio quarto 10x14

# The words before the one that is typed, without options and their values: a command, its own word, files.
function __impose_words
    set -l words (commandline -opc)[2..]
    while set -q words[1]
        switch $words[1]
            case --
                printf '%s\n' $words[2..]
                return
            case '--*=*'
            case -p $__impose_valued
                set -e words[1]
            case '-?*'
            case '*'
                echo $words[1]
        end
        set -e words[1]
    end
end

# Whether one of these commands was typed.
function __impose_of
    contains -- (__impose_words)[1] $argv
end

# Whether so many words were typed, of which the first is one of these commands, if any is named.
function __impose_at
    set -l words (__impose_words)
    test (count $words) = $argv[1]; and begin
        not set -q argv[2]; or contains -- $words[1] $argv[2..]
    end
end

# Whether what was typed last takes a word that may also be left out.
function __impose_after
    test (commandline -opc)[-1] = $argv[1]
end

# Whether a file comes next.
function __impose_at_file
    set -l words (__impose_words)
    switch "$words[1]"
        case '' help
            return 1
        case nup cards stack notes poster select spec
            set -q words[2]
    end
end

# The files with one of these endings, and folders; if there are none, all files.
function __impose_files
    set -l typed (commandline -ct | string unescape)
    set -l typed (string replace -r '^--\w+=' '' -- "$typed")
    set -l all "$typed"*
    set -l found (for file in $all
        if test -d $file
            echo $file/
        else
            string match -qri "\.($argv[1])\$" -- $file; and echo $file
        end
    end)
    set -q found[1]; and printf '%s\n' $found; or printf '%s\n' $all
end

# The names of papers, which go on after a hyphen.
function __impose_paper
    if string match -q '*-*' -- (commandline -ct | string replace -r '^--?\w+=?' '')
        printf '%s-landscape\n' $__impose_papers
    else
        printf '%s\n' $__impose_papers
    end
end

set -l laid nup booklet cards stack
set -l numbered $laid notes select
set -l looked $laid zine notes poster select
set -l rows $laid zine notes poster spec
set -l sheeted $rows unbooklet
set -l shown $rows select
set -l every $shown unbooklet
set -l lengths 2mm 5mm 1cm

# NAME|COMMANDS|VALUES|DESCRIPTION of each option with a value. COMMANDS are commands, and names of the lists above.
set -l valued \
    "paper|every|(__impose_paper)|the paper of the pages" \
    "border|every|.5pt 1pt .5mm|a border round each page" \
    "sheet|sheeted|(__impose_paper)|the paper of the sheets" \
    "preview|shown|(__impose_files svg)|draw the sheets, and impose nothing" \
    "turn|looked unbooklet|left right half wide|turn pages before they are placed" \
    "pages|sheeted||these pages, such as 3-9,12" \
    "numbers|numbered|8pt 10pt 12pt|the number of each page at its foot" \
    "numbers-from|numbered|1 2 3|the number of the first page" \
    "margin|laid zine notes poster unbooklet|$lengths|room along each edge of a sheet" \
    "gap|laid zine notes|$lengths|room between pages" \
    "trim|laid notes|$lengths|less of each page along its sides" \
    "marks|laid poster unbooklet|fold cut fold,cut|short lines where sheets are folded or cut" \
    "scale|laid poster unbooklet|0.5 0.7 1|the scale of the pages" \
    "skip|nup cards|1 2 3 4|leave cells of the first sheet empty that are used already" \
    "order|nup cards stack|right-down down-right left-down down-left|the order of the cells" \
    "turned|nup cards stack|left right|for pages whose text lies on its side" \
    "overlap|poster unbooklet|5mm 1cm 2cm|this length of the page on both of two sheets" \
    "signature|booklet spec unbooklet|auto 4 8 12 16 20 24 28 32|fold the leaves in signatures of this many pages" \
    "creep|booklet|.5mm 1mm 2mm|move pages of the innermost leaf towards the fold"
# Those of impose-pdf alone.
set -l of_pdfs \
    "box|every|art bleed crop media trim|which box of a page is placed" \
    "bleed|every|3mm 5mm .125in|print this much around the TrimBox" \
    "each|every|(__fish_complete_directories)|give each file its own PDF of sheets, in this folder" \
    "suffix|every|-booklet -sheets|give each file its own PDF of sheets, with this added to its name" \
    "text|every|foot: head: outer-foot: inner-foot: centre:|print words at this place of each page" \
    "stamp|every|DRAFT COPY|print words across each page" \
    "under|every|(__impose_files pdf)|put the first page of this PDF under each page" \
    "over|every|(__impose_files pdf)|put the first page of this PDF over each page" \
    "password|every|(__impose_files txt)|open files with the password in the first line of this one"
set -l of_pdfs_alone \
    "crop|every|take what is drawn on a page as the page" \
    "each-right|every|begin each file on a right-hand page"
set -l plain \
    "unguarded|every|leave the document's own operators as they are" \
    "replace|every|replace a document by another program" \
    "odd|every|of the chosen pages the first, the third and so on" \
    "even|every|of the chosen pages the second, the fourth and so on" \
    "reverse|every|the chosen pages in reverse order" \
    "plan|shown|print which page is where, and impose nothing" \
    "rtl|laid zine unbooklet|from right to left" \
    "same-scale|laid zine notes|all pages in the scale of the largest paper" \
    "long-edge|booklet|rotate the backs, for a printer that flips on the long edge" \
    "cover|booklet|keep the last page at the back, with the blanks before it" \
    "duplex|stack|for printing on both sides" \
    "print-spec|spec|print the specification, and impose nothing"
set -g __impose_valued --(string replace -r '\|.*' '' -- $valued $of_pdfs)

set -l commands 'nup\tseveral pages on each sheet' 'booklet\tto be printed on both sides, folded and stapled' \
    'zine\teight pages on one sheet, to be folded and cut' 'cards\teach page several times on a sheet, to be cut' \
    'stack\tto be cut into piles that run on' 'notes\tpages with lines for notes beside them' 'poster\teach page over several sheets' \
    'select\tsome pages, in the order in which they are named' 'spec\tas a page specification of pstops places them' 'help\twhat there is'
set -l listed "(printf '%b\n' $(string escape -- $commands | string join ' '))"

for program in impose impose-pdf
    set -l endings 'ps|eps'
    set -l options $valued
    if test $program = impose-pdf
        set endings 'pdf|jpe?g|png'
        set -a options $of_pdfs $of_pdfs_alone
        complete -c $program -n '__impose_at 0' -a unbooklet -d 'the pages of a booklet, cut from its sheets'
        complete -c $program -n '__impose_at 1 help' -a unbooklet -d 'the pages of a booklet, cut from its sheets'
        complete -c $program -n '__impose_after --crop' -a 'same same,5mm 5mm'
        complete -c $program -n "__impose_of $every" -l crop -a 'same same,5mm 5mm'
        complete -c $program -n "__impose_of $looked unbooklet" -l turn -xa 'left= right= half='
        complete -c $program -n "__impose_of $laid poster unbooklet" -l marks -xa 'registration bars slug fold,cut,registration,bars,slug'
    end
    complete -c $program -f
    complete -c $program -n '__impose_at 0' -s V -l version -d 'print the version'
    complete -c $program -s h -l help -d 'print help'
    complete -c $program -n '__impose_at 0' -a $listed
    complete -c $program -n '__impose_at 1 help' -a $listed
    complete -c $program -n '__impose_at 1 nup cards stack' -a '1 2 4 6 8 9 16 2x4'
    complete -c $program -n '__impose_at 1 notes' -a '1 2 3 4'
    complete -c $program -n '__impose_at 1 poster' -a 'auto 2x2 2x3 3x2 3x3 4x4 a0 a1 a2 a3 200%'
    complete -c $program -n __impose_at_file -a "(__impose_files '$endings')"
    complete -c $program -n "__impose_of $every" -s q -l quiet -d 'print no report'
    complete -c $program -n "__impose_of $every" -s p -xa '(__impose_paper)' -d 'the paper of the pages'
    for option in $options $plain
        set -l parts (string split '|' -- $option)
        set -l of
        for word in (string split ' ' -- $parts[2])
            set -q $word; and set -a of $$word; or set -a of $word
        end
        if set -q parts[4]
            complete -c $program -n "__impose_of $of" -l $parts[1] -xa "$parts[3]" -d "$parts[4]"
        else
            complete -c $program -n "__impose_of $of" -l $parts[1] -d "$parts[3]"
        end
    end
end
