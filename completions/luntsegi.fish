# Completion for fish: the commands of luntsegi, their options and values, and file names.

# Whether the command before the cursor is one of these.
function __luntsegi_is
    set -l words (commandline -opc)
    set -q words[2]; and contains -- $words[2] $argv
end

# Whether the cursor is at the first word.
function __luntsegi_wants_first
    test (count (commandline -opc)) -eq 1
end

# Whether it is at the name of a command, which may be asked about.
function __luntsegi_wants_command
    __luntsegi_wants_first; and return
    __luntsegi_is help; and test (count (commandline -opc)) -eq 2
end

# Whether there is a command and no operand before the cursor yet, so that FILE is next.
function __luntsegi_wants_file
    set -l words (commandline -opc)
    set -q words[2]; and not __luntsegi_is help; or return 1
    set -l is_value 0
    set -l is_operand 0
    for word in $words[3..]
        if test $is_value = 1
            set is_value 0
        else if test $is_operand = 1
            return 1
        else if test "$word" = --
            set is_operand 1
        else if __luntsegi_has_value $word
            set is_value 1
        else if not string match -q -- '-?*' $word
            return 1
        end
    end
    test $is_value = 0
end

complete -c luntsegi -f
complete -c luntsegi -n __luntsegi_wants_file -F

# ---- made from help by tools/usage/words.py
# Whether an option has a value.
function __luntsegi_has_value
    contains -- $argv[1] --form --meta --assume-meta --page-size --parts --prefix --from -o --sequence --at
end

complete -c luntsegi -n __luntsegi_wants_command -a info -d 'Print the active meta'
complete -c luntsegi -n __luntsegi_wants_command -a page -d 'Print one page'
complete -c luntsegi -n __luntsegi_wants_command -a pages -d 'Print what each page is for, and count free pages past the end of the file'
complete -c luntsegi -n __luntsegi_wants_command -a check -d 'Check whether the file is sound'
complete -c luntsegi -n __luntsegi_wants_command -a states -d 'Print what can still be read of a damaged file, under each root page that it may have, the likeliest first'
complete -c luntsegi -n __luntsegi_wants_command -a buckets -d 'Print the names of the buckets in a bucket'
complete -c luntsegi -n __luntsegi_wants_command -a keys -d 'Print the keys of a bucket, and the names of the buckets in it'
complete -c luntsegi -n __luntsegi_wants_command -a get -d 'Print the value of a key'
complete -c luntsegi -n __luntsegi_wants_command -a stats -d 'Print figures of all buckets, or of one and all in it'
complete -c luntsegi -n __luntsegi_wants_command -a list -d 'Print everything in the file or in a bucket, one line for each path, in hex or as JSON'
complete -c luntsegi -n __luntsegi_wants_command -a compact -d 'Write a compact copy'
complete -c luntsegi -n __luntsegi_wants_command -a load -d 'Write a database of a listing'
complete -c luntsegi -n __luntsegi_wants_command -a etcd-revisions -d 'Print the revisions of etcd\'s keys'
complete -c luntsegi -n __luntsegi_wants_command -a etcd-keys -d 'Print etcd\'s keys, as they are or as they were at a revision'
complete -c luntsegi -n __luntsegi_wants_command -a etcd-get -d 'Print the value of one of etcd\'s keys, as it is or as it was at a revision'
complete -c luntsegi -n __luntsegi_wants_command -a etcd-check -d 'Check the file as check --all does, and then whether etcd\'s records in it are whole'
complete -c luntsegi -n __luntsegi_wants_command -a etcd-status -d 'Print what etcd would report of the file'
complete -c luntsegi -n __luntsegi_wants_command -a etcd-repair -d 'Write a copy of a damaged file, with the revisions of etcd\'s keys that are found put back'
complete -c luntsegi -n __luntsegi_wants_command -a help -d 'Print this message or the help of the given subcommand(s)'
complete -c luntsegi -n __luntsegi_wants_first -s h -l help -d 'Print help'
complete -c luntsegi -n __luntsegi_wants_first -s V -l version -d 'Print version'
complete -c luntsegi -n '__luntsegi_is info stats etcd-status' -l form -x -a 'lines json' -d 'How to print the figures'
complete -c luntsegi -n '__luntsegi_is info' -l meta -x -a '0 1' -d 'Print the meta in slot 0 or 1, active or not'
complete -c luntsegi -n '__luntsegi_is info page pages check states buckets keys get stats list compact load etcd-revisions etcd-keys etcd-get etcd-check etcd-status etcd-repair' -s h -l help -d 'Print help'
complete -c luntsegi -n '__luntsegi_is page check buckets keys get stats list compact etcd-revisions etcd-keys etcd-get etcd-check etcd-status etcd-repair' -l assume-meta -x -d 'Read the file as under a meta with page size and root page A, such as 4096:3, and ignore its metas and freelist'
complete -c luntsegi -n '__luntsegi_is pages' -l map -d 'Print a map instead'
complete -c luntsegi -n '__luntsegi_is check' -l all -d 'Go on after the first error of the trees, say what is lost with each, and look for gaps in pages and a damaged other meta'
complete -c luntsegi -n '__luntsegi_is check' -l lost-and-found -d 'As with --all, and name each intact leaf that nothing leads to, if something is lost'
complete -c luntsegi -n '__luntsegi_is check' -l for-bbolt -d 'Also look for all that bbolt is known to fail on when it writes to the file'
complete -c luntsegi -n '__luntsegi_is check' -l etcd-snapshot -d 'First check that the file ends with the SHA-256 of what is before it, as an etcd snapshot does'
complete -c luntsegi -n '__luntsegi_is check buckets keys get stats list compact etcd-revisions etcd-keys etcd-get etcd-check etcd-status etcd-repair' -l meta -x -a '0 1' -d 'Read the file under the meta in slot 0 or 1, active or not, and ignore the freelist'
complete -c luntsegi -n '__luntsegi_is states' -l page-size -x -d 'The page size of the pages that are tried, in bytes'
complete -c luntsegi -n '__luntsegi_is buckets' -l sizes -d 'Also print each bucket\'s number of keys, its bytes used and its bytes allocated, with all buckets in it'
complete -c luntsegi -n '__luntsegi_is buckets keys get etcd-revisions etcd-keys etcd-get' -l form -x -a 'printable hex bytes text mixed json json-hex' -d 'How to print names, keys and values'
complete -c luntsegi -n '__luntsegi_is buckets keys get stats list' -l parts -x -a 'text hex mixed' -d 'How the path is written'
complete -c luntsegi -n '__luntsegi_is buckets keys get list compact' -l recover -d 'Read everything that a damaged file still holds, and say what is lost'
complete -c luntsegi -n '__luntsegi_is keys' -l prefix -x -d 'Print only the keys that begin with K, which is written as the path is'
complete -c luntsegi -n '__luntsegi_is get etcd-get' -s n -l no-newline -d 'Print no line feed after the value'
complete -c luntsegi -n '__luntsegi_is list' -l from -x -d 'The path to begin at'
complete -c luntsegi -n '__luntsegi_is list' -l form -x -a 'hex json json-hex' -d 'How to print each line'
complete -c luntsegi -n '__luntsegi_is list compact' -l lost-and-found -d 'As with --recover, and read each intact leaf that nothing leads to, in a bucket lost+found'
complete -c luntsegi -n '__luntsegi_is compact load etcd-repair' -s o -r -F -d 'The database file to write'
complete -c luntsegi -n '__luntsegi_is compact etcd-repair' -l page-size -x -d 'The copy\'s page size in bytes, a power of two from 1024 to 33554432'
complete -c luntsegi -n '__luntsegi_is compact load' -l for-bbolt -d 'Give each branch page at least two children, so that bbolt can write to OUT'
complete -c luntsegi -n '__luntsegi_is compact load' -l etcd-snapshot -d 'Write a snapshot that etcd restores'
complete -c luntsegi -n '__luntsegi_is load' -l page-size -x -d 'The database\'s page size in bytes, a power of two from 1024 to 33554432'
complete -c luntsegi -n '__luntsegi_is load' -l sequence -x -d 'The sequence of the root bucket, in decimal'
complete -c luntsegi -n '__luntsegi_is etcd-revisions' -l from -x -d 'The revision to begin at, in decimal, below 2^63'
complete -c luntsegi -n '__luntsegi_is etcd-revisions etcd-keys' -l prefix -x -d 'Print only the keys that begin with K, which is written as --parts says'
complete -c luntsegi -n '__luntsegi_is etcd-revisions etcd-keys' -l values -d 'Also print the values'
complete -c luntsegi -n '__luntsegi_is etcd-revisions etcd-keys' -l parts -x -a 'text hex mixed' -d 'How K is written'
complete -c luntsegi -n '__luntsegi_is etcd-keys etcd-get etcd-status' -l at -x -d 'Read etcd\'s keys as they were at revision R, in decimal, below 2^63'
complete -c luntsegi -n '__luntsegi_is etcd-get' -l parts -x -a 'text hex mixed' -d 'How NAME is written'
complete -c luntsegi -n '__luntsegi_is etcd-repair' -l etcd-snapshot -d 'Write a snapshot that etcd restores'
complete -c luntsegi -n '__luntsegi_is etcd-repair' -l search -d 'Also look for revisions if nothing is lost'
# ---- end
