-- Rows of a database that are out of their rules: a selection for each rule. Each shows its rule
-- and the keys of the rows that break it, and nothing where there are none.
--
--     sqlite3 -readonly FILE < docs/rows.sql
--
-- Stop the program first, and look at a copy of both files, FILE and FILE-wal: a sqlite3 that isn't
-- read-only writes the log back into the file as it closes. docs/TABLES.md says what to do then.
--
-- An opening reports a row that breaks a rule: as open fault 2 the version, as open fault 3 the
-- others. What is below `not at an opening` is found here alone.

-- ---- what the schema says: pages and indexes, rows that name rows, CHECKs
PRAGMA integrity_check;
SELECT 'foreign key: the row that is named is there' AS rule, "table", rowid, parent
  FROM pragma_foreign_key_check;
SELECT 'CHECK: no number is below 0' AS rule, name, rows
  FROM (SELECT 'meta' AS name, count(*) AS rows FROM meta WHERE min(id, version, last_moment) < 0
    UNION ALL SELECT 'accounts', count(*) FROM accounts
      WHERE min(barred, as_of, next_bucket, next_charge) < 0
    UNION ALL SELECT 'buckets', count(*) FROM buckets
      WHERE min(number, starts, ends, ifnull(scope, 0), credited, available, reserved, charged,
        expired) < 0
    UNION ALL SELECT 'counters', count(*) FROM counters WHERE min(rating_group, cycle, blocks) < 0
    UNION ALL SELECT 'sessions', count(*) FROM sessions WHERE min(last_number, touched, state) < 0
    UNION ALL SELECT 'session_groups', count(*) FROM session_groups
      WHERE min(rating_group, used, reserved) < 0
    UNION ALL SELECT 'holds', count(*) FROM holds WHERE min(rating_group, bucket, amount) < 0
    UNION ALL SELECT 'answers', count(*) FROM answers WHERE min(kind, number) < 0
    UNION ALL SELECT 'vouchers', count(*) FROM vouchers
      WHERE min(amount, ifnull(days, 0), ifnull(scope, 0)) < 0
    UNION ALL SELECT 'charges', count(*) FROM charges
      WHERE min(number, moment, rating_group, blocks, rated, collected, uncollected) < 0
    UNION ALL SELECT 'books', count(*) FROM books WHERE min(number, starts) < 0
    UNION ALL SELECT 'grant_books', count(*) FROM grant_books WHERE min(rating_group, book) < 0
    UNION ALL SELECT 'allowance_buckets', count(*) FROM allowance_buckets WHERE number < 0
    UNION ALL SELECT 'covered', count(*) FROM covered WHERE min(number, blocks) < 0)
  WHERE rows > 0;
SELECT 'CHECK: credited is the sum of the four columns' AS rule, account, number, credited
  FROM buckets WHERE credited <> available + reserved + charged + expired;
SELECT 'CHECK: rated is the sum of collected and uncollected' AS rule, account, number, rated
  FROM charges WHERE rated <> collected + uncollected;

-- ---- meta
SELECT 'meta: one row, with id 1' AS rule, count(*) AS rows, min(id) AS id
  FROM meta HAVING count(*) <> 1 OR min(id) <> 1;
SELECT 'meta: the version is 3' AS rule, version FROM meta WHERE version <> 3;
SELECT 'meta: the last moment is before 2100' AS rule, last_moment
  FROM meta WHERE last_moment >= 4102444800;

-- ---- accounts
SELECT 'accounts: a number of 1 to 15 digits' AS rule, account
  FROM accounts WHERE length(account) NOT BETWEEN 1 AND 15 OR account GLOB '*[^0-9]*';
SELECT 'accounts: barred is 0 or 1' AS rule, account FROM accounts WHERE barred > 1;
SELECT 'accounts: as_of is before 2100' AS rule, account, as_of
  FROM accounts WHERE as_of >= 4102444800;
SELECT 'accounts: as_of is at most the last moment' AS rule, account, as_of
  FROM accounts WHERE as_of > (SELECT last_moment FROM meta);
SELECT 'accounts: the next numbers are 1 to 4294967296' AS rule, account, next_bucket, next_charge
  FROM accounts
  WHERE next_bucket NOT BETWEEN 1 AND 4294967296 OR next_charge NOT BETWEEN 1 AND 4294967296;

-- ---- buckets
SELECT 'buckets: a number from 1 on' AS rule, account, number
  FROM buckets WHERE number NOT BETWEEN 1 AND 4294967295;
SELECT 'buckets: the number is below next_bucket' AS rule, account, number, next_bucket
  FROM buckets JOIN accounts USING (account) WHERE number >= next_bucket;
SELECT 'buckets: starts is before 2100' AS rule, account, number, starts
  FROM buckets WHERE starts >= 4102444800;
SELECT 'buckets: ends is after starts, and at most 2100-01-01' AS rule, account, number, starts, ends
  FROM buckets WHERE ends <= starts OR ends > 4102444800;
SELECT 'buckets: the scope is a rating group' AS rule, account, number, scope
  FROM buckets WHERE scope > 4294967295;
SELECT 'buckets: credited is at most 10^15' AS rule, account, number, credited
  FROM buckets WHERE credited > 1000000000000000;
-- not at an opening
SELECT 'buckets: expired is 0 before the end' AS rule, account, number, ends, expired
  FROM buckets WHERE expired > 0 AND ends > (SELECT last_moment FROM meta);
-- not at an opening
SELECT 'buckets: available is 0 after the end' AS rule, account, number, ends, available
  FROM buckets JOIN accounts USING (account) WHERE available > 0 AND ends <= as_of;
-- not at an opening
SELECT 'buckets: reserved is the sum of the holds' AS rule, account, number, reserved, held
  FROM (SELECT b.account, b.number, b.reserved, coalesce(sum(h.amount), 0) AS held
    FROM buckets AS b LEFT JOIN holds AS h ON h.account = b.account AND h.bucket = b.number
    GROUP BY b.account, b.number)
  WHERE reserved <> held;

-- ---- allowance_buckets
SELECT 'allowance_buckets: a number from 1 on' AS rule, account, number
  FROM allowance_buckets WHERE number NOT BETWEEN 1 AND 4294967295;
-- not at an opening
SELECT 'allowance_buckets: at most 10^9 blocks, of one rating group' AS rule, account, number
  FROM allowance_buckets JOIN buckets USING (account, number)
  WHERE scope IS NULL OR credited > 1000000000;

-- ---- counters
SELECT 'counters: a rating group and a cycle of 32 bits' AS rule, account, rating_group, cycle
  FROM counters WHERE rating_group > 4294967295 OR cycle > 4294967295;
SELECT 'counters: at most 4 * 10^18 blocks' AS rule, account, rating_group, cycle, blocks
  FROM counters WHERE blocks > 4000000000000000000;

-- ---- sessions
SELECT 'sessions: a Session-Id' AS rule, account, session
  FROM sessions WHERE length(session) NOT BETWEEN 1 AND 128 OR session GLOB '*[^!-~]*';
SELECT 'sessions: a last number of 32 bits' AS rule, account, session, last_number
  FROM sessions WHERE last_number > 4294967295;
SELECT 'sessions: touched is before 2100' AS rule, account, session, touched
  FROM sessions WHERE touched >= 4102444800;
SELECT 'sessions: touched is at most the last moment' AS rule, account, session, touched
  FROM sessions WHERE touched > (SELECT last_moment FROM meta);
SELECT 'sessions: touched of an open one is at most as_of' AS rule, account, session, touched, as_of
  FROM sessions JOIN accounts USING (account) WHERE state = 1 AND touched > as_of;
-- not at an opening
SELECT 'sessions: touched is at most as_of' AS rule, account, session, touched, as_of
  FROM sessions JOIN accounts USING (account) WHERE state <> 1 AND touched > as_of;
SELECT 'sessions: the state is 1, 2 or 3' AS rule, account, session, state
  FROM sessions WHERE state NOT BETWEEN 1 AND 3;

-- ---- session_groups, grant_books, holds
SELECT 'session_groups: a rating group' AS rule, account, session, rating_group
  FROM session_groups WHERE rating_group > 4294967295;
SELECT 'session_groups: used is at most 10^18' AS rule, account, session, rating_group, used
  FROM session_groups WHERE used > 1000000000000000000;
SELECT 'session_groups: two periods with a reservation, none without' AS rule,
  account, session, rating_group, reserved, period_before, period_after
  FROM session_groups
  WHERE NOT CASE reserved
    WHEN 0 THEN period_before IS NULL AND period_after IS NULL
    WHEN 1 THEN period_before IS NOT NULL AND period_after IS NOT NULL
    ELSE 0 END;
SELECT 'session_groups: the periods are those of the book' AS rule,
  g.account, g.session, g.rating_group, period_before, period_after
  FROM session_groups AS g LEFT JOIN grant_books AS b USING (account, session, rating_group)
  WHERE reserved = 1
    AND coalesce((SELECT instr(text, '"' || period_before || '"') = 0
      OR instr(text, '"' || period_after || '"') = 0
      FROM (SELECT 1 AS number, book AS text FROM meta UNION ALL SELECT number, content FROM books)
      WHERE number = coalesce(b.book, 1)), 1);
-- not at an opening
SELECT 'session_groups: the rating group is one of the book' AS rule,
  g.account, g.session, g.rating_group
  FROM session_groups AS g JOIN grant_books AS b USING (account, session, rating_group)
  JOIN (SELECT 1 AS number, book AS text FROM meta UNION ALL SELECT number, content FROM books) AS t
    ON t.number = b.book
  WHERE reserved = 1
    AND replace(text, ' ', '') || char(10)
      NOT GLOB '*' || char(10) || 'id=' || g.rating_group || '[^0-9]*';
SELECT 'session_groups: a reservation is in an open session' AS rule,
  account, session, rating_group, state
  FROM session_groups JOIN sessions USING (account, session) WHERE reserved = 1 AND state <> 1;
SELECT 'grant_books: a row for each reservation' AS rule, account, session, rating_group
  FROM session_groups LEFT JOIN grant_books USING (account, session, rating_group)
  WHERE reserved = 1 AND book IS NULL;
SELECT 'grant_books: the number is that of a book' AS rule, account, session, rating_group, book
  FROM grant_books WHERE book <> 1 AND book NOT IN (SELECT number FROM books);
-- not at an opening
SELECT 'grant_books: the book has begun' AS rule, account, session, rating_group, book, starts
  FROM grant_books JOIN books ON number = book
  WHERE starts > (SELECT last_moment FROM meta);
SELECT 'holds: an amount of 1 to 10^15' AS rule, account, session, rating_group, bucket, amount
  FROM holds WHERE amount NOT BETWEEN 1 AND 1000000000000000;

-- ---- answers
SELECT 'answers: under a Session-Id and a number, or under a reference and 0' AS rule,
  account, kind, name, number
  FROM answers
  WHERE name GLOB '*[^!-~]*' OR NOT CASE kind
    WHEN 1 THEN length(name) BETWEEN 1 AND 128 AND number <= 4294967295
    WHEN 2 THEN length(name) BETWEEN 1 AND 64 AND number = 0
    ELSE 0 END;
SELECT 'answers: both texts are compact JSON' AS rule, account, kind, name, number
  FROM answers
  WHERE CASE WHEN json_valid(content) AND json_valid(answer)
    THEN content <> json(content) OR answer <> json(answer) ELSE 1 END;
SELECT 'answers: the key is that of the command' AS rule, account, kind, name, number
  FROM answers
  WHERE json_valid(content) AND NOT CASE kind
    WHEN 1 THEN name IS json_extract(content, '$."Session-Id"')
      AND number IS json_extract(content, '$."CC-Request-Number"')
    WHEN 2 THEN name IS json_extract(content, '$.Reference')
    ELSE 0 END;
SELECT 'answers: the command is one of the account' AS rule, account, kind, name, number
  FROM answers
  WHERE json_valid(content)
    AND account <> coalesce(json_extract(content, '$."Subscription-Id"."Subscription-Id-Data"'),
      json_extract(content, '$."Subscription-Id-Data"'), account);
SELECT 'answers: the answer is one to the command' AS rule, account, kind, name, number
  FROM answers
  WHERE json_valid(content) AND json_valid(answer) AND NOT CASE kind
    WHEN 1 THEN json_extract(answer, '$."Session-Id"') IS json_extract(content, '$."Session-Id"')
      AND json_extract(answer, '$."CC-Request-Number"')
        IS json_extract(content, '$."CC-Request-Number"')
      AND json_extract(answer, '$."CC-Request-Type"')
        IS json_extract(content, '$."CC-Request-Type"')
    WHEN 2 THEN answer
      = '{"Bucket":' || coalesce(json_extract(answer, '$.Bucket'), '') || ',"Result-Code":2001}'
    ELSE 0 END;
-- not at an opening
SELECT 'answers: the bucket of the answer is below next_bucket' AS rule, account, name, next_bucket
  FROM answers JOIN accounts USING (account)
  WHERE kind = 2 AND json_valid(answer) AND json_extract(answer, '$.Bucket') >= next_bucket;
-- not at an opening
SELECT 'answers: the voucher of a redemption is spent by the account' AS rule, account, name
  FROM answers AS a
  WHERE kind = 2 AND json_valid(content) AND json_extract(content, '$."Voucher-Code"') IS NOT NULL
    AND a.account IS NOT (SELECT v.account FROM vouchers AS v
      WHERE v.code = json_extract(a.content, '$."Voucher-Code"'));

-- ---- vouchers
SELECT 'vouchers: a code of 12 digits' AS rule, code
  FROM vouchers WHERE length(code) <> 12 OR code GLOB '*[^0-9]*';
SELECT 'vouchers: an amount of 1 to 10^15' AS rule, code, amount
  FROM vouchers WHERE amount NOT BETWEEN 1 AND 1000000000000000;
SELECT 'vouchers: 1 to 3650 days' AS rule, code, days
  FROM vouchers WHERE days NOT BETWEEN 1 AND 3650;
SELECT 'vouchers: the scope is a rating group' AS rule, code, scope
  FROM vouchers WHERE scope > 4294967295;

-- ---- charges, covered
SELECT 'charges: a number from 1 on' AS rule, account, number
  FROM charges WHERE number NOT BETWEEN 1 AND 4294967295;
SELECT 'charges: the number is below next_charge' AS rule, account, number, next_charge
  FROM charges JOIN accounts USING (account) WHERE number >= next_charge;
SELECT 'charges: the moment is before 2100' AS rule, account, number, moment
  FROM charges WHERE moment >= 4102444800;
SELECT 'charges: the moment is at most the last moment' AS rule, account, number, moment
  FROM charges WHERE moment > (SELECT last_moment FROM meta);
-- not at an opening
SELECT 'charges: the moment is at most as_of' AS rule, account, number, moment, as_of
  FROM charges JOIN accounts USING (account) WHERE moment > as_of;
SELECT 'charges: a Session-Id' AS rule, account, number, session
  FROM charges WHERE length(session) NOT BETWEEN 1 AND 128 OR session GLOB '*[^!-~]*';
SELECT 'charges: a rating group' AS rule, account, number, rating_group
  FROM charges WHERE rating_group > 4294967295;
SELECT 'charges: at most 10^9 blocks' AS rule, account, number, blocks
  FROM charges WHERE blocks > 1000000000;
SELECT 'charges: rated is at most 10^18' AS rule, account, number, rated
  FROM charges WHERE rated > 1000000000000000000;
-- not at an opening
SELECT 'charges: collected is what money buckets were charged' AS rule, account, collected, charged
  FROM (SELECT account,
      coalesce((SELECT sum(collected) FROM charges AS c WHERE c.account = a.account), 0)
        AS collected,
      coalesce((SELECT sum(charged) FROM buckets AS b WHERE b.account = a.account
        AND NOT EXISTS (SELECT 1 FROM allowance_buckets AS w
          WHERE w.account = b.account AND w.number = b.number)), 0) AS charged
    FROM accounts AS a)
  WHERE collected <> charged;
SELECT 'covered: 1 to 10^9 blocks' AS rule, account, number, blocks
  FROM covered WHERE blocks NOT BETWEEN 1 AND 1000000000;
-- not at an opening
SELECT 'covered: no more blocks than the charge has' AS rule, account, number, c.blocks
  FROM covered AS c JOIN charges AS x USING (account, number) WHERE c.blocks > x.blocks;

-- ---- books
SELECT 'books: numbered 2 to 16, one after another' AS rule, number
  FROM books WHERE number NOT BETWEEN 2 AND 1 + (SELECT count(*) FROM books) OR number > 16;
SELECT 'books: starts is after 0 and before 2100' AS rule, number, starts
  FROM books WHERE starts NOT BETWEEN 1 AND 4102444799;
SELECT 'books: each begins after the one before it' AS rule, b.number, b.starts
  FROM books AS a JOIN books AS b ON b.number = a.number + 1 WHERE b.starts <= a.starts;
