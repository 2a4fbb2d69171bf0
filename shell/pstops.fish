# fish completion for pstops: options, names of papers, files.
source (status dirname)/impose.fish

# Whether the specification was typed.
function __pstops_at_file
    set -l words (commandline -opc)[2..]
    while set -q words[1]
        switch $words[1]
            case -p -w -h -d -s -j -k
                set -e words[1]
            case '-*'
            case '*'
                return 0
        end
        set -e words[1]
    end
    return 1
end

complete -c pstops -f
complete -c pstops -n __pstops_at_file -a "(__impose_files ps)"
complete -c pstops -s q -d 'write no report line'
complete -c pstops -s p -xa 'a3 a4 a5 letter legal tabloid statement 10x14' -d 'the paper at which pages are cut off'
complete -c pstops -s w -x -d 'the width of that paper'
complete -c pstops -s h -x -d 'the height of that paper'
complete -c pstops -s d -x -d 'a border round each placed page'
complete -c pstops -s s -x -d 'signatures of this many pages'
complete -c pstops -s j -x -d 'the number of threads that prepare pages'
complete -c pstops -s k -x -d 'the number of threads that impose'
