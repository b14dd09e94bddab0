# Completion for bash: the commands of luntsegi, their options and values, and file names.

# ---- made from help by tools/usage/words.py
_luntsegi_commands=(info page pages check states buckets keys get stats list compact load etcd-revisions etcd-keys etcd-get etcd-check etcd-status etcd-repair help)

# The options of a command or, without one, of the program.
_luntsegi_options() {
    case $1 in
        "") echo "-h --help -V --version" ;;
        info) echo "--form --meta -h --help" ;;
        page) echo "--assume-meta -h --help" ;;
        pages) echo "--map -h --help" ;;
        check) echo "--all --lost-and-found --for-bbolt --etcd-snapshot --meta --assume-meta -h --help" ;;
        states) echo "--page-size -h --help" ;;
        buckets) echo "--sizes --form --parts --recover --meta --assume-meta -h --help" ;;
        keys) echo "--prefix --form --parts --recover --meta --assume-meta -h --help" ;;
        get) echo "-n --no-newline --form --parts --recover --meta --assume-meta -h --help" ;;
        stats) echo "--form --parts --meta --assume-meta -h --help" ;;
        list) echo "--from --form --parts --recover --lost-and-found --meta --assume-meta -h --help" ;;
        compact) echo "-o --page-size --for-bbolt --etcd-snapshot --recover --lost-and-found --meta --assume-meta -h --help" ;;
        load) echo "-o --page-size --for-bbolt --etcd-snapshot --sequence -h --help" ;;
        etcd-revisions) echo "--from --prefix --values --parts --form --meta --assume-meta -h --help" ;;
        etcd-keys) echo "--at --prefix --values --parts --form --meta --assume-meta -h --help" ;;
        etcd-get) echo "--at -n --no-newline --parts --form --meta --assume-meta -h --help" ;;
        etcd-check) echo "--meta --assume-meta -h --help" ;;
        etcd-status) echo "--at --form --meta --assume-meta -h --help" ;;
        etcd-repair) echo "-o --page-size --etcd-snapshot --search --meta --assume-meta -h --help" ;;
    esac
}

# The values of a command's option that has only a few.
_luntsegi_values() {
    case "$1 $2" in
        "info --form" | "stats --form" | "etcd-status --form") echo "lines json" ;;
        "info --meta" | "check --meta" | "buckets --meta" | "keys --meta" | "get --meta" | "stats --meta" | "list --meta" | "compact --meta" | "etcd-revisions --meta" | "etcd-keys --meta" | "etcd-get --meta" | "etcd-check --meta" | "etcd-status --meta" | "etcd-repair --meta") echo "0 1" ;;
        "buckets --form" | "keys --form" | "get --form" | "etcd-revisions --form" | "etcd-keys --form" | "etcd-get --form") echo "printable hex bytes text mixed json json-hex" ;;
        "buckets --parts" | "keys --parts" | "get --parts" | "stats --parts" | "list --parts" | "etcd-revisions --parts" | "etcd-keys --parts" | "etcd-get --parts") echo "text hex mixed" ;;
        "list --form") echo "hex json json-hex" ;;
    esac
}

# Whether an option has a value.
_luntsegi_has_value() {
    case $1 in
        --form | --meta | --assume-meta | --page-size | --parts | --prefix | --from | -o | --sequence | --at) return 0 ;;
        *) return 1 ;;
    esac
}

# Whether that is a file.
_luntsegi_has_file() {
    case $1 in
        -o) return 0 ;;
        *) return 1 ;;
    esac
}
# ---- end

# Whether there is no operand before the cursor yet, so that FILE is next.
# An = between an option and its value is a word of its own.
_luntsegi_wants_file() {
    local at word
    for ((at = 2; at < COMP_CWORD; at++)); do
        word=${COMP_WORDS[at]}
        if [[ $word == -- ]]; then
            continue
        elif _luntsegi_has_value "$word"; then
            [[ ${COMP_WORDS[at + 1]} == = ]] && ((at++))
            ((at++))
        elif [[ $word != -?* ]]; then
            return 1
        fi
    done
}

_luntsegi_words() {
    mapfile -t COMPREPLY < <(compgen -W "$1" -- "$2")
}

_luntsegi_files() {
    compopt -o filenames 2> /dev/null
    mapfile -t COMPREPLY < <(compgen -f -- "$1")
}

# The option whose value the cursor may be at: the word before, or the one before an =.
_luntsegi_option() {
    local before=${COMP_WORDS[COMP_CWORD - 1]}
    [[ $before == = ]] && before=${COMP_WORDS[COMP_CWORD - 2]}
    echo "$before"
}

# Completes the first word.
_luntsegi_command() {
    case $1 in
        -*) _luntsegi_words "$(_luntsegi_options)" "$1" ;;
        *) _luntsegi_words "${_luntsegi_commands[*]}" "$1" ;;
    esac
}

# Completes an option or FILE. Only the user knows the other operands.
_luntsegi_option_or_operand() {
    if [[ $1 == -* && " ${COMP_WORDS[*]:0:COMP_CWORD} " != *" -- "* ]]; then
        _luntsegi_words "$(_luntsegi_options "${COMP_WORDS[1]}")" "$1"
    elif _luntsegi_wants_file; then
        _luntsegi_files "$1"
    fi
}

_luntsegi_argument() {
    local option
    option=$(_luntsegi_option)
    if _luntsegi_has_file "$option"; then
        _luntsegi_files "$1"
    elif _luntsegi_has_value "$option"; then
        _luntsegi_words "$(_luntsegi_values "${COMP_WORDS[1]}" "$option")" "$1"
    else
        _luntsegi_option_or_operand "$1"
    fi
}

_luntsegi() {
    local current=${COMP_WORDS[COMP_CWORD]}
    COMPREPLY=()
    if ((COMP_CWORD == 1)); then
        _luntsegi_command "$current"
    elif [[ ${COMP_WORDS[1]} != help ]]; then
        _luntsegi_argument "${current#=}"
    elif ((COMP_CWORD == 2)); then
        _luntsegi_words "${_luntsegi_commands[*]}" "$current"
    fi
}

complete -F _luntsegi luntsegi
