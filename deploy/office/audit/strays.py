"""Rows that belong to nothing, and vouchers beside their redemptions, of one database.

`findings` in audit/__init__ walks over them beside `reckoned`, which looks at what accounts have."""
from __future__ import annotations

import json
from collections.abc import Iterator

from office.audit.findings import Finding
from office.tables import Database

# Rows of a table that nothing else of the database leads to: the columns of their keys.
STRAYS = {
    "buckets": "SELECT account, number FROM buckets WHERE account NOT IN own",
    "answers": "SELECT account, name FROM answers WHERE account NOT IN own",
    "charges": "SELECT account, number FROM charges WHERE account NOT IN own",
    "counters": "SELECT account, rating_group FROM counters WHERE account NOT IN own",
    "sessions": "SELECT account, session FROM sessions WHERE account NOT IN own",
    "session_groups": """
        SELECT account, session, rating_group FROM session_groups
        WHERE (account, session) NOT IN (SELECT account, session FROM sessions)""",
    "holds": """
        SELECT account, session, bucket FROM holds
        WHERE (account, session, rating_group) NOT IN
            (SELECT account, session, rating_group FROM session_groups WHERE reserved = 1)""",
    "grant_books": """
        SELECT account, session, rating_group FROM grant_books
        WHERE (account, session, rating_group) NOT IN
            (SELECT account, session, rating_group FROM session_groups WHERE reserved = 1)""",
    "allowance_buckets": """
        SELECT account, number FROM allowance_buckets WHERE (account, number) NOT IN
            (SELECT account, number FROM buckets WHERE scope IS NOT NULL)""",
    "covered": """
        SELECT account, number FROM covered
        WHERE (account, number) NOT IN (SELECT account, number FROM charges)""",
    "accounts": "SELECT account FROM accounts WHERE as_of > (SELECT last_moment FROM meta)",
}


def findings(shard: str, database: Database) -> Iterator[Finding]:
    """Strays, contents under other keys, and vouchers."""
    for table, query in STRAYS.items():
        own = query.replace("own", "(SELECT account FROM accounts)")
        for row in database.rows(own):
            yield Finding(shard, table, " ".join(map(str, row.values())), "belongs to nothing")
    yield from keys(shard, database)
    yield from vouchers(shard, database)


def keys(shard: str, database: Database) -> Iterator[Finding]:
    """Kept contents and answers that aren't those of their own key."""
    for row in database.rows("SELECT account, kind, name, number, content, answer FROM answers"):
        content, answer = json.loads(row["content"]), json.loads(row["answer"])
        key = row["account"], row["name"], row["number"]
        if row["kind"] == 1:
            told = content.get("Subscription-Id", {}).get("Subscription-Id-Data")
            those = [(told, *named(content)), (row["account"], *named(answer))]
        else:
            told = content.get("Subscription-Id-Data", row["account"])
            those = [(told, content.get("Reference"), 0)]
        if any(one != key for one in those):
            name = " ".join(map(str, key))
            yield Finding(shard, "answers", name, "its content or its answer is of another key")


def named(told: dict[str, object]) -> tuple[object, object]:
    """The session and the number of a request or an answer."""
    return told.get("Session-Id"), told.get("CC-Request-Number")


def vouchers(shard: str, database: Database) -> Iterator[Finding]:
    """A voucher is spent by the one account that has its redemption, and by no other."""
    redeemed: dict[str, str] = {}
    rows = database.rows(
        "SELECT account, content FROM answers WHERE kind = 2 AND content LIKE '%\"Voucher-Code\":%'"
    )
    for row in rows:
        code = json.loads(row["content"])["Voucher-Code"]
        if code in redeemed:
            yield Finding(shard, "vouchers", code, "redeemed twice")
        redeemed[code] = row["account"]
    for row in database.rows("SELECT code, account FROM vouchers"):
        by = redeemed.pop(row["code"], None)
        if by != row["account"]:
            what = f"spent by {row['account']}, redeemed by {by}"
            yield Finding(shard, "vouchers", row["code"], what)
    for code in redeemed:
        yield Finding(shard, "vouchers", code, "redeemed, and isn't there")
