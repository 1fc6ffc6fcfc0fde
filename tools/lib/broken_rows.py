"""Rows that another writer left: what SQLite changes in one row or two of a small office, with
foreign keys and CHECKs off, what an opening reports of it, and which selections of docs/rows.sql
find it. tools/play opening and tools/play rows call it; a case more is one line, and costs an opening and a
run of all selections, some 50 milliseconds."""
import contextlib
import json
import shutil
import sqlite3
import subprocess
import sys

import offices

BEGIN = 1767607200
DAY = 86400
VOUCHERS = offices.TOP / "examples/vouchers.csv"
OPENED, VERSION, RULES = None, "ocs: open fault 2", "ocs: open fault 3"


def line(at, account, session, kind, number, units, **more):
    """A request of rating group 10, as a line of `replay`."""
    request = {
        "Session-Id": session,
        "CC-Request-Type": kind,
        "CC-Request-Number": number,
        "Subscription-Id": {"Subscription-Id-Type": 0, "Subscription-Id-Data": account},
        "Multiple-Services-Credit-Control": [{"Rating-Group": 10, **units}],
        **more,
    }
    return f"{BEGIN + at} {json.dumps(request, separators=(',', ':'))}\n"


def asked(seconds):
    return {"Requested-Service-Unit": {"CC-Time": seconds}}


def lines():
    """A session that stays open, two debits, and a session that ends."""
    debit = {"Requested-Action": 0}
    used = {"Used-Service-Unit": [{"CC-Time": 30}]}
    return (
        line(0, "49151", "live", 1, 0, asked(300))
        + line(10, "49152", "debit", 4, 0, asked(60), **debit)
        + line(20, "49151", "other", 4, 0, asked(60), **debit)
        + line(30, "49152", "ended", 1, 0, asked(60))
        + line(40, "49152", "ended", 3, 1, used)
    )


COMMANDS = [
    "init db book.toml",
    f"open db 49151 --at {BEGIN}",
    f"open db 49152 --at {BEGIN}",
    f"credit db 49151 1000000 first --at {BEGIN}",
    f"credit db 49152 500000 second --at {BEGIN} --until {BEGIN + 40 * DAY}",
    "replay db lines",
    f"allow db 49151 3 third --scope 30 --at {BEGIN + 50}",
    f"import db vouchers.csv --at {BEGIN + 60}",
    f"book db book.toml --from {BEGIN + 10 * DAY}",
]
OPEN = f"open db 777 --at {BEGIN + 90}"

# A voucher that is redeemed, as a redemption over HTTP keeps it; its bucket is the first one.
REDEEMED = """
UPDATE vouchers SET account = '49151' WHERE code = '000000000001';
INSERT INTO answers VALUES ('49151', 2, 'fourth', 0,
  '{"Reference":"fourth","Subscription-Id-Data":"49151","Voucher-Code":"000000000001"}',
  '{"Bucket":1,"Result-Code":2001}');
"""


def make(built, work):
    """Makes the office: two accounts, sessions, charges, an allowance, vouchers and two books."""
    shutil.copy(offices.BOOK, work / "book.toml")
    shutil.copy(VOUCHERS, work / "vouchers.csv")
    (work / "lines").write_text(lines())
    for words in COMMANDS:
        if subprocess.run([built, *words.split()], cwd=work, capture_output=True).returncode != 0:
            sys.exit(f"broken_rows: {words} failed")
    change(work, REDEEMED)


def change(work, text):
    """Changes rows, whatever they name or their CHECKs say, and leaves no log."""
    with contextlib.closing(sqlite3.connect(work / "db")) as database:
        database.execute("PRAGMA foreign_keys = OFF")
        database.execute("PRAGMA ignore_check_constraints = ON")
        database.executescript(text)
        database.commit()
        database.execute("PRAGMA wal_checkpoint(TRUNCATE)")


def of(table, account, change_of):
    return f"UPDATE {table} SET {change_of} WHERE account = '{account}'"


# What is changed, what an opening reports of it, and the rule of docs/rows.sql that finds it.
ROWS = [
    # accounts and the last moment
    (
        of("accounts", 49151, "as_of = 2030000000"),
        RULES,
        "accounts: as_of is at most the last moment",
    ),
    (
        of("accounts", 49151, "as_of = as_of + 268435456"),
        RULES,
        "accounts: as_of is at most the last moment",
    ),
    (
        of("accounts", 49151, "as_of = 4102444799"),
        RULES,
        "accounts: as_of is at most the last moment",
    ),
    ("UPDATE meta SET last_moment = 2030000000", OPENED, None),
    (
        "UPDATE meta SET last_moment = 4102444800",
        RULES,
        "meta: the last moment is before 2100",
    ),
    (
        "UPDATE meta SET last_moment = 0",
        RULES,
        "charges: the moment is at most the last moment",
    ),
    ("UPDATE meta SET last_moment = 1767607250", OPENED, None),
    (
        """UPDATE meta SET last_moment = 0;
        UPDATE meta SET last_moment = (SELECT max(as_of) FROM accounts)""",
        OPENED,
        None,
    ),
    (
        "UPDATE meta SET last_moment = 1767607249",
        RULES,
        "accounts: as_of is at most the last moment",
    ),
    (of("accounts", 49151, "as_of = 1767607260"), OPENED, None),
    (
        of("accounts", 49151, "as_of = 1767607261"),
        RULES,
        "accounts: as_of is at most the last moment",
    ),
    (of("accounts", 49151, "as_of = 4102444800"), RULES, "accounts: as_of is before 2100"),
    (
        "UPDATE sessions SET touched = 2030000000 WHERE session = 'live'",
        RULES,
        "sessions: touched is at most the last moment",
    ),
    (
        "UPDATE sessions SET touched = 2030000000 WHERE session = 'ended'",
        RULES,
        "sessions: touched is at most the last moment",
    ),
    (
        "UPDATE sessions SET touched = touched + 15 WHERE session = 'ended'",
        OPENED,
        "sessions: touched is at most as_of",
    ),
    (
        "UPDATE sessions SET touched = 1767607260 WHERE session = 'live'",
        RULES,
        "sessions: touched of an open one is at most as_of",
    ),
    (
        "UPDATE sessions SET touched = 1767607260 WHERE session = 'ended'",
        OPENED,
        "sessions: touched is at most as_of",
    ),
    (
        "UPDATE sessions SET touched = 1767607261 WHERE session = 'ended'",
        RULES,
        "sessions: touched is at most the last moment",
    ),
    (
        "UPDATE sessions SET touched = 4102444800 WHERE session = 'ended'",
        RULES,
        "sessions: touched is before 2100",
    ),
    (
        of("charges", 49152, "moment = 2030000000"),
        RULES,
        "charges: the moment is at most the last moment",
    ),
    (of("charges", 49152, "moment = moment + 15"), OPENED, "charges: the moment is at most as_of"),
    (of("charges", 49152, "moment = 1767607260"), OPENED, "charges: the moment is at most as_of"),
    (
        of("charges", 49152, "moment = 1767607261"),
        RULES,
        "charges: the moment is at most the last moment",
    ),
    (of("charges", 49152, "moment = 4102444800"), RULES, "charges: the moment is before 2100"),
    # flags and names of accounts
    (of("accounts", 49151, "barred = 2"), RULES, "accounts: barred is 0 or 1"),
    (
        "INSERT INTO accounts VALUES ('12a', 0, 0, 1, 1)",
        RULES,
        "accounts: a number of 1 to 15 digits",
    ),
    (
        "INSERT INTO accounts VALUES ('1234567890123456', 0, 0, 1, 1)",
        RULES,
        "accounts: a number of 1 to 15 digits",
    ),
    # numbers
    (of("accounts", 49152, "next_charge = 1"), RULES, "charges: the number is below next_charge"),
    (of("accounts", 49152, "next_charge = 2"), RULES, "charges: the number is below next_charge"),
    (of("accounts", 49152, "next_charge = 3"), OPENED, None),
    (of("accounts", 49152, "next_charge = 10"), OPENED, None),
    (
        "INSERT INTO charges VALUES ('49152', 3, 1767607200, 'more', 10, 5, 500000, 500000, 0)",
        RULES,
        "charges: the number is below next_charge",
    ),
    (
        """INSERT INTO charges
        VALUES ('49152', 4000000000, 1767607200, 'more', 10, 5, 500000, 500000, 0)""",
        RULES,
        "charges: the number is below next_charge",
    ),
    (
        of("accounts", 49152, "next_charge = 4294967297"),
        RULES,
        "accounts: the next numbers are 1 to 4294967296",
    ),
    (
        of("accounts", 49152, "next_bucket = 0"),
        RULES,
        "accounts: the next numbers are 1 to 4294967296",
    ),
    (
        "INSERT INTO charges VALUES ('49152', 0, 1767607200, 'more', 10, 0, 0, 0, 0)",
        RULES,
        "charges: a number from 1 on",
    ),
    (
        "INSERT INTO buckets VALUES ('49152', 0, 0, 4102444800, NULL, 0, 0, 0, 0, 0)",
        RULES,
        "buckets: a number from 1 on",
    ),
    (of("accounts", 49152, "next_bucket = 1"), RULES, "buckets: the number is below next_bucket"),
    (of("accounts", 49152, "next_bucket = 2"), OPENED, None),
    (of("accounts", 49152, "next_bucket = 10"), OPENED, None),
    (
        of("accounts", 49152, "next_bucket = 1")
        + ";"
        + of("buckets", 49152, "available = 0, charged = 500000"),
        RULES,
        "buckets: the number is below next_bucket",
    ),
    (
        "INSERT INTO buckets VALUES ('49152', 2, 0, 4102444800, NULL, 900, 900, 0, 0, 0)",
        RULES,
        "buckets: the number is below next_bucket",
    ),
    (
        "INSERT INTO buckets VALUES ('49152', 2, 0, 4102444800, NULL, 900, 0, 0, 900, 0)",
        RULES,
        "buckets: the number is below next_bucket",
    ),
    (
        "INSERT INTO buckets VALUES ('49152', 4294967295, 0, 4102444800, NULL, 900, 900, 0, 0, 0)",
        RULES,
        "buckets: the number is below next_bucket",
    ),
    # reservations and holds
    (
        of("buckets", 49151, "available = 300000, reserved = 600000") + " AND number = 1",
        OPENED,
        "buckets: reserved is the sum of the holds",
    ),
    (
        of("buckets", 49151, "available = 500000, reserved = 400000") + " AND number = 1",
        OPENED,
        "buckets: reserved is the sum of the holds",
    ),
    (
        of("buckets", 49151, "available = 900000, reserved = 0") + " AND number = 1",
        OPENED,
        "buckets: reserved is the sum of the holds",
    ),
    (
        of("buckets", 49152, "available = 200000, reserved = 100000"),
        OPENED,
        "buckets: reserved is the sum of the holds",
    ),
    ("UPDATE holds SET amount = 900000", OPENED, "buckets: reserved is the sum of the holds"),
    (
        "UPDATE holds SET amount = 1000000000000000",
        OPENED,
        "buckets: reserved is the sum of the holds",
    ),
    ("UPDATE holds SET bucket = 9", RULES, "foreign key: the row that is named is there"),
    (
        "INSERT INTO holds VALUES ('49151', 'live', 10, 2, 1)",
        OPENED,
        "buckets: reserved is the sum of the holds",
    ),
    ("UPDATE holds SET amount = 0", RULES, "holds: an amount of 1 to 10^15"),
    ("DELETE FROM holds", OPENED, "buckets: reserved is the sum of the holds"),
    (
        """UPDATE session_groups SET reserved = 1, period_before = 'peak', period_after = 'peak'
        WHERE session = 'ended'""",
        RULES,
        "session_groups: a reservation is in an open session",
    ),
    (
        "UPDATE sessions SET state = 2 WHERE session = 'live'",
        RULES,
        "session_groups: a reservation is in an open session",
    ),
    (
        "UPDATE sessions SET state = 3 WHERE session = 'live'",
        RULES,
        "session_groups: a reservation is in an open session",
    ),
    ("UPDATE sessions SET state = 3 WHERE session = 'ended'", OPENED, None),
    (
        "UPDATE session_groups SET reserved = 2 WHERE session = 'live'",
        RULES,
        "session_groups: two periods with a reservation, none without",
    ),
    (
        "UPDATE session_groups SET period_after = NULL WHERE session = 'live'",
        RULES,
        "session_groups: two periods with a reservation, none without",
    ),
    (
        "UPDATE session_groups SET period_before = 'nope' WHERE session = 'live'",
        RULES,
        "session_groups: the periods are those of the book",
    ),
    (
        "INSERT INTO session_groups VALUES ('49152', 'ended', 4294967296, 0, 0, NULL, NULL)",
        RULES,
        "session_groups: a rating group",
    ),
    ("UPDATE grant_books SET book = 0", RULES, "grant_books: the number is that of a book"),
    ("UPDATE grant_books SET book = 3", RULES, "grant_books: the number is that of a book"),
    ("DELETE FROM grant_books", RULES, "grant_books: a row for each reservation"),
    ("INSERT INTO grant_books VALUES ('49152', 'ended', 10, 1)", OPENED, None),
    ("UPDATE grant_books SET book = 2", OPENED, "grant_books: the book has begun"),
    ("INSERT INTO session_groups VALUES ('49151', 'live', 77, 5, 0, NULL, NULL)", OPENED, None),
    (
        """INSERT INTO session_groups VALUES ('49151', 'live', 77, 5, 1, 'peak', 'peak');
        INSERT INTO grant_books VALUES ('49151', 'live', 77, 1)""",
        OPENED,
        "session_groups: the rating group is one of the book",
    ),
    (
        """UPDATE books SET content = replace(replace(content,
        '["off", "peak"]', '["off", "peak", "extra"]'), '{period = "off", tiers',
        '{period = "extra", tiers = [{price = 7}]}, {period = "off", tiers');
        UPDATE session_groups SET period_before = 'extra', period_after = 'extra'
        WHERE session = 'live'""",
        RULES,
        "session_groups: the periods are those of the book",
    ),
    # sessions
    ("UPDATE session_groups SET used = 1000000000000000000 WHERE session = 'live'", OPENED, None),
    (
        "UPDATE session_groups SET used = 1000000000000000001 WHERE session = 'live'",
        RULES,
        "session_groups: used is at most 10^18",
    ),
    ("UPDATE sessions SET last_number = 4294967295 WHERE session = 'live'", OPENED, None),
    (
        "UPDATE sessions SET last_number = 4294967296 WHERE session = 'live'",
        RULES,
        "sessions: a last number of 32 bits",
    ),
    (
        "UPDATE sessions SET state = 0 WHERE session = 'ended'",
        RULES,
        "sessions: the state is 1, 2 or 3",
    ),
    (
        "UPDATE sessions SET state = 4 WHERE session = 'ended'",
        RULES,
        "sessions: the state is 1, 2 or 3",
    ),
    ("INSERT INTO sessions VALUES ('49152', 'a b', 0, 0, 2)", RULES, "sessions: a Session-Id"),
    ("UPDATE sessions SET last_number = 0 WHERE session = 'ended'", OPENED, None),
    (
        "DELETE FROM sessions WHERE session = 'debit'",
        RULES,
        "foreign key: the row that is named is there",
    ),
    (
        """DELETE FROM session_groups WHERE session = 'debit';
        DELETE FROM sessions WHERE session = 'debit'""",
        OPENED,
        None,
    ),
    # kept answers
    ("DELETE FROM answers WHERE name = 'live'", OPENED, None),
    ("DELETE FROM answers WHERE name = 'debit'", OPENED, None),
    (
        "UPDATE answers SET name = 'elsewhere' WHERE name = 'live'",
        RULES,
        "answers: the key is that of the command",
    ),
    (
        """UPDATE answers SET name = 'elsewhere' WHERE name = 'debit';
        DELETE FROM session_groups WHERE session = 'debit';
        DELETE FROM sessions WHERE session = 'debit'""",
        RULES,
        "answers: the key is that of the command",
    ),
    (
        "UPDATE answers SET number = 7 WHERE name = 'ended' AND number = 1",
        RULES,
        "answers: the key is that of the command",
    ),
    (
        "UPDATE answers SET name = 'elsewhere' WHERE name = 'second'",
        RULES,
        "answers: the key is that of the command",
    ),
    (
        "UPDATE answers SET name = 'elsewhere' WHERE name = 'third'",
        RULES,
        "answers: the key is that of the command",
    ),
    (
        "UPDATE answers SET name = 'elsewhere' WHERE name = 'fourth'",
        RULES,
        "answers: the key is that of the command",
    ),
    (
        "UPDATE answers SET kind = 1 WHERE name = 'second'",
        RULES,
        "answers: the key is that of the command",
    ),
    (
        "UPDATE answers SET kind = 1, name = 'live', number = 9 WHERE name = 'second'",
        RULES,
        "answers: the key is that of the command",
    ),
    (
        "UPDATE answers SET kind = 7 WHERE name = 'second'",
        RULES,
        "answers: under a Session-Id and a number, or under a reference and 0",
    ),
    (
        "UPDATE answers SET number = 1 WHERE name = 'second'",
        RULES,
        "answers: under a Session-Id and a number, or under a reference and 0",
    ),
    (
        "UPDATE answers SET answer = 'x' WHERE name = 'second'",
        RULES,
        "answers: both texts are compact JSON",
    ),
    (
        """UPDATE answers SET answer = '{"Bucket":77,"Result-Code":2001}' WHERE name = 'second'""",
        OPENED,
        "answers: the bucket of the answer is below next_bucket",
    ),
    (
        """UPDATE answers SET answer = replace(answer, '"debit"', '"other"')
        WHERE name = 'debit'""",
        RULES,
        "answers: the answer is one to the command",
    ),
    (
        """UPDATE answers SET answer = '{"Refusal":"O2"}' WHERE name = 'second'""",
        RULES,
        "answers: the answer is one to the command",
    ),
    (
        """UPDATE answers SET answer = '{"Accounts":3,"Result-Code":2001}' WHERE name = 'second'""",
        RULES,
        "answers: the answer is one to the command",
    ),
    (
        "UPDATE answers SET account = '49152' WHERE name = 'live'",
        RULES,
        "answers: the command is one of the account",
    ),
    (
        "UPDATE answers SET content = content || ' ' WHERE name = 'second'",
        RULES,
        "answers: both texts are compact JSON",
    ),
    # vouchers
    (
        "UPDATE vouchers SET account = '777' WHERE code = '000000000002'",
        RULES,
        "foreign key: the row that is named is there",
    ),
    (
        "UPDATE vouchers SET account = NULL",
        OPENED,
        "answers: the voucher of a redemption is spent by the account",
    ),
    (
        "UPDATE vouchers SET code = '00000000001x' WHERE code = '000000000002'",
        RULES,
        "vouchers: a code of 12 digits",
    ),
    ("UPDATE vouchers SET amount = 0", RULES, "vouchers: an amount of 1 to 10^15"),
    ("UPDATE vouchers SET days = 0", RULES, "vouchers: 1 to 3650 days"),
    ("UPDATE vouchers SET days = 3651", RULES, "vouchers: 1 to 3650 days"),
    ("UPDATE vouchers SET scope = 4294967296", RULES, "vouchers: the scope is a rating group"),
    ("UPDATE vouchers SET amount = amount + 1", OPENED, None),
    # charges
    (
        of("charges", 49152, "blocks = 1000000001") + " AND number = 1",
        RULES,
        "charges: at most 10^9 blocks",
    ),
    (of("charges", 49152, "blocks = 9000000000000000000"), RULES, "charges: at most 10^9 blocks"),
    (
        of(
            "charges",
            49152,
            "rated = 9000000000000000000, uncollected = 9000000000000000000 - collected",
        ),
        RULES,
        "charges: rated is at most 10^18",
    ),
    (
        of("charges", 49152, "rated = 5, collected = 5") + " AND number = 1",
        OPENED,
        "charges: collected is what money buckets were charged",
    ),
    (of("charges", 49152, "session = ''"), RULES, "charges: a Session-Id"),
    (of("charges", 49152, "rating_group = 4294967296"), RULES, "charges: a rating group"),
    ("INSERT INTO covered VALUES ('49152', 1, 0)", RULES, "covered: 1 to 10^9 blocks"),
    (
        "INSERT INTO covered VALUES ('49152', 1, 9000000000000000000)",
        RULES,
        "covered: 1 to 10^9 blocks",
    ),
    (
        "INSERT INTO covered VALUES ('49152', 1, 9)",
        OPENED,
        "covered: no more blocks than the charge has",
    ),
    (
        "INSERT INTO covered VALUES ('49152', 9, 1)",
        RULES,
        "foreign key: the row that is named is there",
    ),
    # buckets and allowances
    (
        of("buckets", 49151, "credited = 2000000000, available = 2000000000") + " AND number = 2",
        OPENED,
        "allowance_buckets: at most 10^9 blocks, of one rating group",
    ),
    (
        of("buckets", 49152, "credited = 1000000000000001, available = 999999999800001"),
        RULES,
        "buckets: credited is at most 10^15",
    ),
    (
        of("buckets", 49151, "scope = 4294967296") + " AND number = 2",
        RULES,
        "buckets: the scope is a rating group",
    ),
    (of("buckets", 49152, "starts = 4102444800"), RULES, "buckets: starts is before 2100"),
    (
        """INSERT INTO buckets VALUES ('49152', 0, 0, 4102444800, 10, 3, 3, 0, 0, 0);
        INSERT INTO allowance_buckets VALUES ('49152', 0)""",
        RULES,
        "allowance_buckets: a number from 1 on",
    ),
    (
        "INSERT INTO allowance_buckets VALUES ('49152', 1)",
        OPENED,
        "allowance_buckets: at most 10^9 blocks, of one rating group",
    ),
    (
        "INSERT INTO allowance_buckets VALUES ('49152', 9)",
        RULES,
        "foreign key: the row that is named is there",
    ),
    ("DELETE FROM allowance_buckets", OPENED, None),
    (of("buckets", 49151, "scope = 20") + " AND number = 2", OPENED, None),
    (
        of("buckets", 49152, "starts = 2000000000, ends = 1"),
        RULES,
        "buckets: ends is after starts, and at most 2100-01-01",
    ),
    (
        of("buckets", 49152, "ends = starts"),
        RULES,
        "buckets: ends is after starts, and at most 2100-01-01",
    ),
    (
        of("buckets", 49152, "starts = 1767590000, ends = 1767600000"),
        OPENED,
        "buckets: available is 0 after the end",
    ),
    (
        of("buckets", 49152, "available = 0, expired = 300000"),
        OPENED,
        "buckets: expired is 0 before the end",
    ),
    # counters
    (of("counters", 49152, "blocks = 4000000000000000000"), OPENED, None),
    (
        of("counters", 49152, "blocks = 4000000000000000001"),
        RULES,
        "counters: at most 4 * 10^18 blocks",
    ),
    (
        of("counters", 49152, "cycle = 4294967296"),
        RULES,
        "counters: a rating group and a cycle of 32 bits",
    ),
    (of("counters", 49152, "blocks = 0"), OPENED, None),
    ("INSERT INTO counters VALUES ('49152', 77, 0, 5)", OPENED, None),
    ("INSERT INTO counters VALUES ('49152', 10, 5, 50)", OPENED, None),
    # what the schema says
    (
        of("buckets", 49152, "available = available + 1"),
        RULES,
        "CHECK: credited is the sum of the four columns",
    ),
    ("UPDATE counters SET blocks = -1", RULES, "CHECK: no number is below 0"),
    (
        "UPDATE charges SET uncollected = 5",
        RULES,
        "CHECK: rated is the sum of collected and uncollected",
    ),
    (
        "DELETE FROM accounts WHERE account = '49152'",
        RULES,
        "foreign key: the row that is named is there",
    ),
    ("INSERT INTO accounts VALUES ('049152', 0, 1767607200, 1, 1)", OPENED, None),
    # books
    ("UPDATE books SET number = 3", RULES, "books: numbered 2 to 16, one after another"),
    ("UPDATE books SET starts = 1767600000", OPENED, None),
    ("UPDATE books SET starts = 0", RULES, "books: starts is after 0 and before 2100"),
    ("UPDATE books SET starts = 4102444800", RULES, "books: starts is after 0 and before 2100"),
    (
        "INSERT INTO books SELECT 3, starts - 1, content FROM books",
        RULES,
        "books: each begins after the one before it",
    ),
    ("UPDATE books SET content = 'x'", RULES, None),
    # what is kept once
    (
        "UPDATE meta SET book = replace(book, 'price = 100000', 'price = 300000')",
        OPENED,
        None,
    ),
    ("UPDATE meta SET version = 9", VERSION, "meta: the version is 3"),
    ("UPDATE meta SET version = 2", VERSION, "meta: the version is 3"),
    (
        "UPDATE meta SET version = 9; UPDATE holds SET amount = 0",
        VERSION,
        "holds: an amount of 1 to 10^15",
    ),
    ("UPDATE meta SET version = 9, last_moment = 5000000000", VERSION, "meta: the version is 3"),
    ("UPDATE meta SET version = 9, last_moment = 4294967296", VERSION, "meta: the version is 3"),
    ("UPDATE meta SET version = 9, last_moment = 4294967295", VERSION, "meta: the version is 3"),
    ("UPDATE meta SET version = 9, book = 'x'", VERSION, "meta: the version is 3"),
    ("UPDATE meta SET version = 4294967296", VERSION, "meta: the version is 3"),
    ("UPDATE meta SET version = 9223372036854775807", VERSION, "meta: the version is 3"),
    ("UPDATE meta SET version = 9, id = 2", RULES, "meta: one row, with id 1"),
    ("DELETE FROM meta", RULES, "meta: one row, with id 1"),
    (
        "INSERT INTO meta SELECT 2, version, book, last_moment FROM meta",
        RULES,
        "meta: one row, with id 1",
    ),
]
