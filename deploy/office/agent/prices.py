"""Prices: the books that hold and those that come, and a book that is tried beside them.

Books are read in copies of the shards; a trial asks two copies of one, as the word `trial` does."""
from __future__ import annotations

import pathlib
import tempfile
from collections.abc import Iterator

from office import books, shards, trials
from office.agent.asked import Asked, Body, Office
from office.agent.kept import Copy
from office.books import NO_BOUND, Book, Group
from office.faults import Refused, Unread

# What the program says of a text that is no book.
NO_BOOK = "ocs: book fault"
SHELF = tuple[tuple[str, int], ...]


def shelf(office: Office, asked: Asked) -> Body:
    """The shelves of books: one, where each shard has the same from now on."""
    asked.told()
    with office.kept.all() as copies:
        moment = min(copy.moment for copy in copies)
        found: dict[SHELF, list[str]] = {}
        for copy in copies:
            found.setdefault(from_now_on(copy), []).append(copy.shard.number)
    shelves = [
        {"shards": numbers, "books": [book_of(books.read(*one), moment) for one in those]}
        for those, numbers in found.items()
    ]
    return {"as_of": moment, "shelves": shelves}


def from_now_on(copy: Copy) -> SHELF:
    """The texts and first moments of the books that hold at a copy's moment and later."""
    those = books.shelf(copy.database)
    current = those.index(books.at(those, int(copy.moment)))
    return tuple((book.text, book.starts) for book in those[current:])


def book_of(book: Book, moment: float) -> Body:
    """A book with its prices by group and period."""
    return {
        "starts": book.starts,
        "starts_shown": book.zone.shown(book.starts) if book.starts else "",
        "holds": book.starts <= moment,
        "zone": book.zone.text,
        "currency": book.currency,
        "validity": book.validity,
        "week": book.week,
        "groups": [group_of(group) for group in book.groups.values()],
        "text": book.text,
    }


def group_of(group: Group) -> Body:
    """A rating group; a tier is up to so many blocks of a cycle, the last one without a bound."""
    prices = [
        {"period": period, "tiers": [tier_of(*tier) for tier in tiers]}
        for period, tiers in group.tiers.items()
    ]
    return {
        "rating_group": group.number,
        "unit": group.member,
        "block": group.block,
        "cycle": group.cycle,
        "final": group.final,
        "prices": prices,
    }


def tier_of(bound: int, price: int) -> Body:
    """A tier: its price is that of a block, in micro-units."""
    return {"upto": None if bound == NO_BOUND else bound, "price": price}


def trial(office: Office, asked: Asked) -> Body:
    """The old and the new price of each group in each period, for numbers of blocks."""
    told = asked.told("from", "blocks", "shard")
    if not told.get("from"):
        raise Unread("from=YYYY-MM-DDThh:mm (or seconds since 1970) is missing behind the ?")
    counts = trials.numbers(told.get("blocks", trials.BLOCKS))
    asked.text()
    shard = shards.named(office.settings, told.get("shard", "01"))
    with tempfile.TemporaryDirectory() as folder, office.kept.twin(shard) as (copy, moment):
        file = pathlib.Path(folder) / "book.toml"
        file.write_bytes(asked.body)
        try:
            tried = trials.tried(office.settings, copy, file, told["from"], counts)
        except Refused as fault:
            if str(fault).startswith(NO_BOOK):
                raise Unread(f"the body is no tariff book: {fault} (docs/FORMATS.md)") from fault
            raise
    return {
        "as_of": moment,
        "shard": shard.number,
        "from": tried.book.moment,
        "from_shown": tried.book.shown(),
        "currency": tried.currency,
        "prices": list(rows(tried)),
    }


def rows(tried: trials.Tried) -> Iterator[Body]:
    """A row a question; a price is none where the book hasn't the group."""
    for one, old, new in zip(tried.asked, tried.old, tried.new):
        yield {
            "rating_group": one.group.number,
            "period": one.period,
            "moment": one.moment,
            "blocks": one.blocks,
            "old": old,
            "new": new,
        }
