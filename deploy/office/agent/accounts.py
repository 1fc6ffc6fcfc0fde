"""An account as people ask about it: why she was refused, what is open, what paid her charges.

Lines are those of the doors' log now; the rest is of a copy. It costs a look at the log since a
moment, and the account's rows of a month."""
from __future__ import annotations

import collections
import re
import time
from collections.abc import Iterator

from office import accounts, books, shards, statements
from office.agent.asked import Asked, Body, Office
from office.agent.kept import Copy
from office.books import Book
from office.civil import month_of
from office.faults import Unread
from office.log_line import NONE, Answered
from office.seen import sentences, traced
from office.tables import Row

# Lines of the log in one answer: the last ones.
LINES = 500
DAY = 86_400
SESSIONS = """
    SELECT session, last_number, touched FROM sessions
    WHERE account = ? AND state = 1 ORDER BY touched DESC, session"""
GROUPS = """
    SELECT session, rating_group, used, reserved FROM session_groups
    WHERE account = ? AND session = ? ORDER BY rating_group"""
HOLDS = """
    SELECT h.bucket, h.amount, b.scope IS NOT NULL AND a.number IS NOT NULL AS is_blocks
    FROM holds h JOIN buckets b ON b.account = h.account AND b.number = h.bucket
    LEFT JOIN allowance_buckets a ON a.account = h.account AND a.number = h.bucket
    WHERE h.account = ? AND h.session = ? AND h.rating_group = ? ORDER BY h.bucket"""
CHARGES = """
    SELECT c.number, c.moment, c.session, c.rating_group, c.blocks, coalesce(v.blocks, 0) AS covered,
           c.rated, c.collected, c.uncollected
    FROM charges c LEFT JOIN covered v USING (account, number)
    WHERE c.account = ? AND c.moment BETWEEN ? AND ? ORDER BY c.number"""


def account(office: Office, asked: Asked, number: str) -> Body:
    """All of it."""
    told = asked.told("month", "since")
    since = told.get("since", str(int(time.time()) - DAY))
    if not re.fullmatch("[0-9]{1,10}", since):
        raise Unread(f"since={since!r} is no moment: seconds since 1970")
    month = month_of(told["month"]) if "month" in told else ""
    lines_as_of, count = time.time(), 0
    last = collections.deque[Answered](maxlen=LINES)
    for count, (_, line) in enumerate(traced.lines(office.settings, number, f"@{since}"), 1):
        last.append(line)
    shard = shards.Homes(office.settings).home(number)
    with office.kept.opened(shard) as copy:
        kept = of_copy(copy, number, month)
    return kept | {
        "account": number,
        "shard": shard.number,
        "lines": [line_of(line) for line in last],
        "lines_before": count - len(last),
        "lines_since": int(since),
        "lines_as_of": round(lines_as_of, 3),
    }


def line_of(line: Answered) -> Body:
    """A line of the log, in words."""
    return {
        "moment": line.moment,
        "who": line.who,
        "door": line.door,
        "asked": sentences.plain(sentences.asked(line)),
        "answered": sentences.plain(sentences.answered(line)),
        "sentence": sentences.sentence(line),
        "session": "" if line.session == NONE else line.session,
        "id": line.id,
    }


def of_copy(copy: Copy, number: str, month: str) -> Body:
    """What a copy has of an account."""
    shelf = books.shelf(copy.database)
    moment = max(int(copy.moment), copy.database.last_moment)
    month = month or shelf[0].zone.month(moment)
    barred = copy.database.one("SELECT barred FROM accounts WHERE account = ?", number)
    return {
        "as_of": copy.moment,
        "is_open": barred is not None,
        "barred": bool(barred),
        "month": month,
        "currency": books.at(shelf, moment).currency,
        "sessions": list(sessions(copy, shelf, number, moment)),
        "charges": list(charges(copy, shelf, number, month)),
    }


def sessions(copy: Copy, shelf: list[Book], number: str, moment: int) -> Iterator[Body]:
    """The sessions that are open at a moment, the last touched first, with what each holds."""
    for row in list(copy.database.rows(SESSIONS, number)):
        ends = accounts.end_of(shelf, row["touched"])
        if moment < ends:
            groups = list(copy.database.rows(GROUPS, number, row["session"]))
            yield row | {"ends": ends, "groups": [group_of(copy, number, one) for one in groups]}


def group_of(copy: Copy, number: str, row: Row) -> Body:
    """A rating group of an open session: what it used, and what is held for it in which bucket."""
    held: list[Row] = []
    if row["reserved"]:
        held = list(copy.database.rows(HOLDS, number, row["session"], row["rating_group"]))
    return {
        "rating_group": row["rating_group"],
        "used": row["used"],
        "reserved": bool(row["reserved"]),
        "held": [one | {"is_blocks": bool(one["is_blocks"])} for one in held],
    }


def charges(copy: Copy, shelf: list[Book], number: str, month: str) -> Iterator[Row]:
    """The charges of a civil month, with the blocks of each that allowances covered."""
    zone = shelf[0].zone
    for row in copy.database.rows(CHARGES, number, *statements.around(zone, month)):
        if zone.month(row["moment"]) == month:
            yield row | {"day": zone.day(row["moment"])}
