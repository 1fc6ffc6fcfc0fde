"""A past that ends: accounts in a new database, by the program's own words and routes.

`plan` says what of a database is carried, and why it can't be; `turn` makes a shard's new database and
puts it in the old one's place, which becomes an archive. What is carried: accounts and bars, what is
left of live buckets with first moment, end, scope and reference, counters on which a price depends,
vouchers that aren't spent, the books from today's on. Charges, answers, spent vouchers and empty
buckets stay in the archive."""
