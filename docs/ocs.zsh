#compdef ocs
# Completions of ocs for zsh: copy this file as `_ocs` to a folder of $fpath, or source it behind `compinit`.
# tools/repo words compares them with what the program says of its words.

_ocs_commands() {
    local -a commands=(
        'once:Answers requests from standard input, without a database'
        'init:Creates a database for a tariff book'
        'migrate:Brings a database of an older version to the latest'
        'book:Adds a tariff book to a database'
        'serve:Serves connections of HTTP on 127.0.0.1'
        'import:Adds the vouchers of a file'
        'open:Opens an account'
        'bar:Bars an account\: it is granted nothing more'
        'unbar:Ends that an account is barred'
        'sweep:Brings each account to the moment'
        'credit:Gives an account money'
        'allow:Gives an account blocks of a rating group'
        "statement:Writes an account's charges of a month"
        'clock:Prints the day, the month and the period at moments'
        'replay:Answers dated requests from a file'
        'help:Print this message or the help of the given subcommand(s)'
    )
    _describe -t commands command commands
}

# The operands and options of a command. What has no action gets a message and nothing to choose.
_ocs_words() {
    local -a help=('(- *)'{-h,--help}'[Print help]') at=('--at=[The moment]:moment: ')
    local -a database=('1:database:_files') account=('2:account: ')
    local -a more=('--until=[Until when it can be used]:moment: ' $at)
    case $1 in
        once)
            _arguments -S $help '--credit=[What the account is opened with]:amount: ' \
                '--price=[The price of a block]:price: ' '--block=[The size of a block]:seconds: '
            ;;
        init) _arguments -S $help $database '2:book:_files' ;;
        migrate) _arguments -S $help $database ;;
        book)
            _arguments -S $help $database '2:book:_files' '--from=[The moment from which the book holds]:moment: '
            ;;
        serve)
            _arguments -S $help $at $database '--port=[The port]:port: ' \
                '--connections=[How many connections are served]:connections: '
            ;;
        import) _arguments -S $help $at $database '2:vouchers:_files' ;;
        open | bar | unbar) _arguments -S $help $at $database $account ;;
        sweep) _arguments -S $help $at $database ;;
        credit)
            _arguments -S $help $more $database $account '3:amount: ' '4:reference: ' \
                '--scope=[The rating group that it pays for]:rating group: '
            ;;
        allow)
            _arguments -S $help $more $database $account '3:blocks: ' '4:reference: ' \
                '--scope=[The rating group whose blocks they are]:rating group: '
            ;;
        statement)
            _arguments -S $help $at $database $account '3:month: ' '--csv[Writes the charges as CSV]'
            ;;
        clock) _arguments -S $help $database '*:moment: ' ;;
        replay) _arguments -S $help $database '2:requests:_files' ;;
        help) _arguments '1:command:_ocs_commands' ;;
    esac
}

_ocs() {
    local -a line
    local context state state_descr
    local -A opt_args
    _arguments -C '(- *)'{-h,--help}'[Print help]' '(- *)'{-V,--version}'[Print version]' \
        '1:command:_ocs_commands' '*::word:->words'
    [[ $state == words ]] && _ocs_words $line[1]
}

if [[ $funcstack[1] == _ocs ]]; then
    _ocs "$@"
else
    compdef _ocs ocs
fi
