-- The tables of ocs that a debit reads or writes, with the rows of 256 accounts, and a debit of one
-- block as a function. What is live is found by partial indexes, where ocs has whole ones.
CREATE TABLE meta (
  id int PRIMARY KEY,
  version bigint NOT NULL,
  book text NOT NULL,
  last_moment bigint NOT NULL
);
CREATE TABLE accounts (
  account text PRIMARY KEY,
  barred bigint NOT NULL,
  as_of bigint NOT NULL,
  next_bucket bigint NOT NULL,
  next_charge bigint NOT NULL
);
CREATE TABLE buckets (
  account text REFERENCES accounts,
  number bigint,
  starts bigint NOT NULL,
  ends bigint NOT NULL,
  scope bigint,
  credited bigint NOT NULL,
  available bigint NOT NULL CHECK (available >= 0),
  reserved bigint NOT NULL CHECK (reserved >= 0),
  charged bigint NOT NULL CHECK (charged >= 0),
  expired bigint NOT NULL CHECK (expired >= 0),
  PRIMARY KEY (account, number),
  CHECK (credited = available + reserved + charged + expired)
);
CREATE INDEX buckets_live ON buckets (account) WHERE available > 0 OR reserved > 0;
CREATE TABLE counters (
  account text REFERENCES accounts,
  rating_group bigint,
  cycle bigint,
  blocks bigint NOT NULL,
  PRIMARY KEY (account, rating_group, cycle)
);
CREATE TABLE sessions (
  account text REFERENCES accounts,
  session text,
  last_number bigint NOT NULL,
  touched bigint NOT NULL,
  state bigint NOT NULL,
  PRIMARY KEY (account, session)
);
CREATE INDEX sessions_open ON sessions (account) WHERE state = 1;
CREATE TABLE session_groups (
  account text,
  session text,
  rating_group bigint,
  used bigint NOT NULL,
  reserved bigint NOT NULL,
  period_before text,
  period_after text,
  PRIMARY KEY (account, session, rating_group),
  FOREIGN KEY (account, session) REFERENCES sessions
);
CREATE TABLE answers (
  account text REFERENCES accounts,
  kind bigint,
  name text,
  number bigint,
  content text NOT NULL,
  answer text NOT NULL,
  PRIMARY KEY (account, kind, name, number)
);
CREATE TABLE charges (
  account text REFERENCES accounts,
  number bigint,
  moment bigint NOT NULL,
  session text NOT NULL,
  rating_group bigint NOT NULL,
  blocks bigint NOT NULL,
  rated bigint NOT NULL,
  collected bigint NOT NULL,
  uncollected bigint NOT NULL,
  PRIMARY KEY (account, number),
  CHECK (rated = collected + uncollected)
);
-- What the one statement keeps.
CREATE TABLE debits (
  account text,
  session text,
  moment bigint NOT NULL,
  amount bigint NOT NULL,
  content text NOT NULL,
  answer text NOT NULL,
  PRIMARY KEY (account, session)
);

INSERT INTO meta VALUES (1, 3, 'book', 0);
INSERT INTO accounts SELECT (49000000 + n)::text, 0, 0, 2, 1 FROM generate_series(0, 255) n;
INSERT INTO buckets
  SELECT (49000000 + n)::text, 1, 0, 4102444800, NULL, 1000000000000, 1000000000000, 0, 0, 0
  FROM generate_series(0, 255) n;

CREATE FUNCTION debit(asked_account text, asked_session text, asked_at bigint, request text, given text)
RETURNS text LANGUAGE plpgsql AS $$
DECLARE
  kept text;
  charge bigint;
  payer bigint;
  is_barred bigint;
BEGIN
  SELECT answer INTO kept FROM answers
    WHERE account = asked_account AND kind = 1 AND name = asked_session AND number = 0;
  IF FOUND THEN
    RETURN kept;
  END IF;
  SELECT barred, next_charge INTO is_barred, charge FROM accounts
    WHERE account = asked_account FOR UPDATE;
  IF NOT FOUND OR is_barred = 1 THEN
    RETURN '5030';
  END IF;
  PERFORM 1 FROM sessions WHERE account = asked_account AND session = asked_session;
  IF FOUND THEN
    RETURN '5004';
  END IF;
  PERFORM 1 FROM sessions WHERE account = asked_account AND state = 1 AND touched < asked_at - 7200;
  IF FOUND THEN
    RAISE EXCEPTION 'a session that is over, whose reservations come back first';
  END IF;
  SELECT number INTO payer FROM buckets
    WHERE account = asked_account AND (available > 0 OR reserved > 0) AND available >= 90000
      AND starts <= asked_at AND asked_at < ends AND (scope IS NULL OR scope = 30)
    ORDER BY ends, number LIMIT 1;
  IF NOT FOUND THEN
    RETURN '4012';
  END IF;
  UPDATE meta SET last_moment = asked_at WHERE id = 1 AND last_moment < asked_at;
  UPDATE accounts SET as_of = asked_at, next_charge = next_charge + 1 WHERE account = asked_account;
  UPDATE buckets SET available = available - 90000, charged = charged + 90000
    WHERE account = asked_account AND number = payer;
  INSERT INTO counters VALUES (asked_account, 30, 0, 1)
    ON CONFLICT (account, rating_group, cycle) DO UPDATE SET blocks = counters.blocks + 1;
  INSERT INTO sessions VALUES (asked_account, asked_session, 0, asked_at, 3);
  INSERT INTO session_groups VALUES (asked_account, asked_session, 30, 1, 0, NULL, NULL);
  INSERT INTO charges VALUES (asked_account, charge, asked_at, asked_session, 30, 1, 90000, 90000, 0);
  INSERT INTO answers VALUES (asked_account, 1, asked_session, 0, request, given);
  RETURN given;
END
$$;
