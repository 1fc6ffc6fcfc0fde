# Completions of ocs for fish: copy this file to ~/.config/fish/completions, or source it. tools/repo words
# compares them with what the program says of its words.

# Whether a path belongs at the cursor: each command's first operands are paths, so many.
function __ocs_wants_path
    set -l bare
    set -l skip no
    for word in (commandline -opc)[2..-1]
        if test $skip = yes
            set skip no
        else if string match -q -- '--*' $word
            contains -- $word --csv --help --version; or string match -q -- '*=*' $word; or set skip yes
        else
            set -a bare $word
        end
    end
    set -l paths 0
    switch "$bare[1]"
        case init book import replay
            set paths 2
        case migrate serve open bar unbar sweep credit allow statement clock
            set paths 1
    end
    test (count $bare) -ge 1 -a (count $bare) -le $paths
end

complete -c ocs -f
complete -c ocs -n __ocs_wants_path -F
complete -c ocs -s h -l help -d 'Print help'
complete -c ocs -n __fish_use_subcommand -s V -l version -d 'Print version'
complete -c ocs -n __fish_use_subcommand -a once -d 'Answers requests from standard input, without a database'
complete -c ocs -n __fish_use_subcommand -a init -d 'Creates a database for a tariff book'
complete -c ocs -n __fish_use_subcommand -a migrate -d 'Brings a database of an older version to the latest'
complete -c ocs -n __fish_use_subcommand -a book -d 'Adds a tariff book to a database'
complete -c ocs -n __fish_use_subcommand -a serve -d 'Serves connections of HTTP on 127.0.0.1'
complete -c ocs -n __fish_use_subcommand -a import -d 'Adds the vouchers of a file'
complete -c ocs -n __fish_use_subcommand -a open -d 'Opens an account'
complete -c ocs -n __fish_use_subcommand -a bar -d 'Bars an account: it is granted nothing more'
complete -c ocs -n __fish_use_subcommand -a unbar -d 'Ends that an account is barred'
complete -c ocs -n __fish_use_subcommand -a sweep -d 'Brings each account to the moment'
complete -c ocs -n __fish_use_subcommand -a credit -d 'Gives an account money'
complete -c ocs -n __fish_use_subcommand -a allow -d 'Gives an account blocks of a rating group'
complete -c ocs -n __fish_use_subcommand -a statement -d 'Writes an account\'s charges of a month'
complete -c ocs -n __fish_use_subcommand -a clock -d 'Prints the day, the month and the period at moments'
complete -c ocs -n __fish_use_subcommand -a replay -d 'Answers dated requests from a file'
complete -c ocs -n __fish_use_subcommand -a help -d 'Print this message or the help of the given subcommand(s)'
complete -c ocs -n '__fish_seen_subcommand_from help' -a 'once init migrate book serve import open bar unbar sweep credit allow statement clock replay help'
complete -c ocs -n '__fish_seen_subcommand_from once' -x -l credit -d 'What the account is opened with'
complete -c ocs -n '__fish_seen_subcommand_from once' -x -l price -d 'The price of a block, 0 to 10^9 micro-units'
complete -c ocs -n '__fish_seen_subcommand_from once' -x -l block -d 'The size of a block'
complete -c ocs -n '__fish_seen_subcommand_from book' -x -l from -d 'The moment from which the book holds'
complete -c ocs -n '__fish_seen_subcommand_from serve' -x -l port -d 'The port'
complete -c ocs -n '__fish_seen_subcommand_from serve' -x -l connections -d 'How many connections are served'
complete -c ocs -n '__fish_seen_subcommand_from serve' -x -l at -d 'The moment'
complete -c ocs -n '__fish_seen_subcommand_from import' -x -l at -d 'The moment'
complete -c ocs -n '__fish_seen_subcommand_from open' -x -l at -d 'The moment'
complete -c ocs -n '__fish_seen_subcommand_from bar' -x -l at -d 'The moment'
complete -c ocs -n '__fish_seen_subcommand_from unbar' -x -l at -d 'The moment'
complete -c ocs -n '__fish_seen_subcommand_from sweep' -x -l at -d 'The moment'
complete -c ocs -n '__fish_seen_subcommand_from credit' -x -l until -d 'Until when it can be used'
complete -c ocs -n '__fish_seen_subcommand_from credit' -x -l scope -d 'The rating group that it pays for'
complete -c ocs -n '__fish_seen_subcommand_from credit' -x -l at -d 'The moment'
complete -c ocs -n '__fish_seen_subcommand_from allow' -x -l until -d 'Until when they can be used'
complete -c ocs -n '__fish_seen_subcommand_from allow' -x -l scope -d 'The rating group whose blocks they are'
complete -c ocs -n '__fish_seen_subcommand_from allow' -x -l at -d 'The moment'
complete -c ocs -n '__fish_seen_subcommand_from statement' -l csv -d 'Writes the charges as CSV'
complete -c ocs -n '__fish_seen_subcommand_from statement' -x -l at -d 'The moment'
