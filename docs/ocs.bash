# Completions of ocs for bash: source this file, or copy it as `ocs` to a folder of bash-completion.
# tools/repo words compares them with what the program says of its words.

_ocs_commands() {
    echo once init migrate book serve import open bar unbar sweep credit allow statement clock replay help
}

# The options of a command, or of the program where it is none.
_ocs_options() {
    case $1 in
        once) echo --credit --price --block -h --help ;;
        init | migrate | clock | replay) echo -h --help ;;
        book) echo --from -h --help ;;
        serve) echo --port --connections --at -h --help ;;
        import | open | bar | unbar | sweep) echo --at -h --help ;;
        credit | allow) echo --until --scope --at -h --help ;;
        statement) echo --csv --at -h --help ;;
        help) ;;
        *) echo -h --help -V --version ;;
    esac
}

# How many paths a command takes; they are the first of its operands.
_ocs_paths() {
    case $1 in
        init | book | import | replay) echo 2 ;;
        migrate | serve | open | bar | unbar | sweep | credit | allow | statement | clock) echo 1 ;;
        *) echo 0 ;;
    esac
}

# What may stand at the cursor: a command, a path, an option, or the value of an option.
# bash hands over `--at=5` as three words.
_ocs_place() {
    local command=${COMP_WORDS[1]} current=${COMP_WORDS[COMP_CWORD]}
    local bare=0 wants_value='' word
    for word in "${COMP_WORDS[@]:0:COMP_CWORD}"; do
        case $wants_value$word in
            = | yes=) wants_value=yes ;;
            yes*) wants_value='' ;;
            -- | -h | --help | -V | --version | --csv) ;;
            -*) wants_value=yes ;;
            *) bare=$((bare + 1)) ;;
        esac
    done
    if [[ $wants_value == yes || $current == = ]]; then
        echo value
    elif [[ $current == -* ]]; then
        echo option
    elif [[ $bare -eq 1 || ($bare -eq 2 && $command == help) ]]; then
        echo command
    elif [[ $((bare - 2)) -lt $(_ocs_paths "$command") ]]; then
        echo path
    else
        echo option
    fi
}

_ocs() {
    local current=${COMP_WORDS[COMP_CWORD]} words=''
    case $(_ocs_place) in
        command) words=$(_ocs_commands) ;;
        option) words=$(_ocs_options "${COMP_WORDS[1]}") ;;
        path)
            compopt -o filenames 2>/dev/null
            mapfile -t COMPREPLY < <(compgen -f -- "$current")
            return
            ;;
    esac
    mapfile -t COMPREPLY < <(compgen -W "$words" -- "$current")
}

complete -F _ocs ocs
