"""What a tariff book would cost beside the prices of now, by two copies of a shard.

The word `trial` and the agent call `tried`. The book is added to one copy by the program's own word,
which says whether it may follow; then price enquiries ask both. It costs a second copy, and five
runs of the program."""
from __future__ import annotations

import contextlib
import dataclasses
import json
import pathlib
import re
import sqlite3
from collections.abc import Iterator

from office import books, program, shelves
from office.books import Book
from office.faults import Refused, Unread
from office.settings import Settings
from office.shelves import Later
from office.tables import opened, uri

WEEK, MINUTE = 7 * 86_400, 60
BLOCKS = "1,10,100,1000"
# Where the search for an account that nobody has begins.
ACCOUNT = 999_999_999_990_000
# The most that an enquiry asks for, in units of time and of anything else.
MOST = {"CC-Time": 4_294_967_295}
MOST_UNITS = 10**15


@dataclasses.dataclass(frozen=True)
class Asked:
    """A price that is asked of both books."""

    group: books.Group
    period: str
    moment: int
    blocks: int


@dataclasses.dataclass(frozen=True)
class Tried:
    """A book that may follow, what was asked, and the prices of before and of it."""

    book: Later
    currency: int
    asked: list[Asked]
    old: list[int | None]
    new: list[int | None]


def tried(
    settings: Settings, copy: pathlib.Path, file: pathlib.Path, typed: str, counts: list[int]
) -> Tried:
    """A book of a file tried over a copy, which is written to, from a moment on as it was typed;
    refused where it may not follow."""
    new = twin(settings, copy)
    book = shelves.later(copy, file, typed)
    fault = shelves.judged(settings, new, book)
    if fault:
        raise Refused(fault)
    with opened(new) as database:
        account = unknown(list(database.rows("SELECT account FROM accounts")))
        last = books.shelf(database)[-1]
        asked = list(questions(last, book.moment, counts))
    was, now = (prices(settings, each, asked, account) for each in (copy, new))
    return Tried(book, last.currency, asked, was, now)


def numbers(text: str) -> list[int]:
    """The numbers of --blocks."""
    if not re.fullmatch(r"[1-9]\d{0,8}(,[1-9]\d{0,8})*", text):
        raise Unread(f"blocks are numbers with commas between, not {text!r}")
    return [int(each) for each in text.split(",")]


def twin(settings: Settings, copy: pathlib.Path) -> pathlib.Path:
    """A second copy beside the first."""
    made = copy.with_name("new.db")
    with (
        contextlib.closing(sqlite3.connect(uri(copy), uri=True)) as source,
        contextlib.closing(sqlite3.connect(made)) as target,
    ):
        source.backup(target)
    program.give(settings, made)
    return made


def unknown(rows: list[dict[str, str]]) -> str:
    """The number of an account that isn't there."""
    there = {row["account"] for row in rows}
    return next(str(at) for at in range(ACCOUNT, 10**15) if str(at) not in there)


def questions(book: Book, since: int, counts: list[int]) -> Iterator[Asked]:
    """What is asked: each group in each period of the week behind a moment."""
    found: dict[str, int] = {}
    for moment in range(since + -since % MINUTE, since + WEEK, MINUTE):
        found.setdefault(book.period(moment), moment)
    for group in book.groups.values():
        most = MOST.get(group.member, MOST_UNITS)
        for period, moment in found.items():
            yield from (
                Asked(group, period, moment, count)
                for count in counts
                if count * group.block <= most
            )


def prices(
    settings: Settings, copy: pathlib.Path, asked: list[Asked], account: str
) -> list[int | None]:
    """The prices that a copy's books give; none where one has no such group."""
    program.done(settings, "open", copy, account, "--at", 0)
    file = copy.with_name("enquiries.in")
    file.write_text("".join(line(one, account) + "\n" for one in asked), encoding="utf-8")
    program.give(settings, file)
    answers = map(json.loads, program.done(settings, "replay", copy, file).splitlines())
    return [
        one["Cost-Information"]["Unit-Value"]["Value-Digits"] if "Cost-Information" in one else None
        for one in answers
    ]


def line(one: Asked, account: str) -> str:
    """A price enquiry as a line of `replay`."""
    units = {one.group.member: one.blocks * one.group.block}
    service = {"Rating-Group": one.group.number, "Requested-Service-Unit": units}
    request = {
        "Session-Id": f"trial-{one.group.number}-{one.moment}-{one.blocks}",
        "CC-Request-Type": 4,
        "CC-Request-Number": 0,
        "Requested-Action": 3,
        "Subscription-Id": {"Subscription-Id-Type": 0, "Subscription-Id-Data": account},
        "Multiple-Services-Credit-Control": [service],
    }
    return f"{one.moment} {json.dumps(request, separators=(',', ':'))}"
