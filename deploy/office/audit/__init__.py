"""What only an audit finds: rows that another hand than the program's wrote, and what isn't true of all
shards together.

The word `audit` walks over databases that nobody serves, so over copies. Of each: rows that belong to
nothing and vouchers (`strays`), and each account reckoned anew from its kept contents and the books
(`reckoned`, by the rules in `ledger`). Of all together, and beside earlier copies: `together`. `sums`
and `page` sum the office up. It costs some 300 microseconds a kept answer."""
