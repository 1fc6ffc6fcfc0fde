"""Tariff books as far as an operator's words need them: groups, tiers, periods; the shelf.

`trial`, `book`, `carry` and `audit` read books that the program has taken as such, so nothing is
judged here."""
from __future__ import annotations

import dataclasses
import functools
import tomllib
from collections.abc import Sequence
from typing import Any

from office.civil import Zone
from office.tables import Database

Tiers = tuple[tuple[int, int], ...]
# Above any counter: the bound of a last tier.
NO_BOUND = 1 << 63
DAY = 24 * 60
WEEK = 7 * DAY
MINUTE = 60
MEMBERS = {"time": "CC-Time", "octets": "CC-Total-Octets", "events": "CC-Service-Specific-Units"}


@dataclasses.dataclass(frozen=True)
class Group:
    """A rating group: its unit's member, its block and cycle, its tiers by period."""

    number: int
    member: str
    block: int
    slice: int
    max_grant: int
    cycle: str
    final: dict[str, Any]  # Final-Unit-Indication (RFC 8506, 8.34)
    tiers: dict[str, Tiers]

    def counts(self) -> bool:
        """Whether a price depends on the place of the counter."""
        return any(len(tiers) > 1 for tiers in self.tiers.values())


@dataclasses.dataclass(frozen=True)
class Book:
    """A tariff book with the text that it was read from, and its first moment."""

    text: str
    starts: int
    groups: dict[int, Group]
    week: list[dict[str, Any]]
    zone: Zone
    currency: int
    validity: int  # seconds

    def period(self, moment: int) -> str:
        """The tariff period at a moment."""
        return self.minutes[self.zone.minute_of_week(moment)]

    def switch(self, moment: int) -> int | None:
        """The tariff switch of a grant: the first whole minute after the moment, and before the end
        of the validity, of another period."""
        return self.other(moment, moment + self.validity)

    def validity_from(self, moment: int) -> int:
        """The validity time of a grant, cut at the change of period after its switch."""
        switch = self.switch(moment)
        second = None if switch is None else self.other(switch, moment + self.validity)
        return self.validity if second is None else second - moment

    def other(self, moment: int, end: int) -> int | None:
        """The first whole minute after a moment, and before an end, whose period is another."""
        first = moment - moment % MINUTE
        if self.zone.offset(first) == self.zone.offset(end):
            at = first + MINUTE * self.runs[self.zone.minute_of_week(first)]
            return at if at < end else None
        here = self.period(first)
        minutes_after = range(first + MINUTE, end, MINUTE)
        return next((at for at in minutes_after if self.period(at) != here), None)

    @functools.cached_property
    def runs(self) -> list[int]:
        """Of each minute of the week, how many minutes later the period is another; more than a
        week where it never is."""
        made = [WEEK + DAY] * WEEK
        for at in range(2 * WEEK - 1, -1, -1):
            here, after = at % WEEK, (at + 1) % WEEK
            is_same = self.minutes[here] == self.minutes[after]
            made[here] = min(made[after] + 1, WEEK + DAY) if is_same else 1
        return made

    @functools.cached_property
    def minutes(self) -> list[str]:
        """The period of each minute of the week."""
        made = [""] * WEEK
        for one in self.week:
            first, last = minutes(one["from"]), minutes(one["to"])
            for day in one["days"]:
                begins = (day - 1) * DAY
                made[begins + first : begins + last] = [one["period"]] * (last - first)
        return made


def minutes(clock: str) -> int:
    """`hh:mm` in minutes."""
    return int(clock[:2]) * 60 + int(clock[3:])


def read(text: str, starts: int) -> Book:
    """A book of a text."""
    told = tomllib.loads(text)
    return Book(
        text,
        starts,
        {one["id"]: group(one) for one in told["group"]},
        told["week"],
        Zone(told["zone"]),
        told["currency"],
        told["validity"],
    )


def group(told: dict[str, Any]) -> Group:
    """A rating group of a book's table."""
    tiers = {one["period"]: tiers_of(one["tiers"]) for one in told["price"]}
    member = MEMBERS[told["unit"]]
    sizes = told["block"], told["slice"], told["max_grant"]
    return Group(told["id"], member, *sizes, told["cycle"], final_unit(told), tiers)


def final_unit(told: dict[str, Any]) -> dict[str, Any]:
    """What a service whose units are final says."""
    if told["final"] == "terminate":
        return {"Final-Unit-Action": 0}
    server = {"Redirect-Address-Type": 2, "Redirect-Server-Address": told["redirect"]}
    return {"Final-Unit-Action": 1, "Redirect-Server": server}


def tiers_of(told: list[dict[str, int]]) -> Tiers:
    """The bounds and prices of a period; the last one has no bound."""
    bounds = [tier["upto"] for tier in told[:-1]] + [NO_BOUND]
    return tuple((bound, tier["price"]) for bound, tier in zip(bounds, told))


def shelf(database: Database) -> list[Book]:
    """The books of a database, in the order of their first moments."""
    return [read(text, starts) for text, starts in database.books()]


def at(those: Sequence[Book], moment: int) -> Book:
    """The book at a moment: the last one that has begun."""
    return [book for book in those if book.starts <= moment][-1]


def price_of(tiers: Tiers, place: int) -> int:
    """The price of the block at a place of the counter, from 1 on, in micro-units."""
    return next(price for bound, price in tiers if place <= bound)


def rated(tiers: Tiers, first: int, count: int) -> int:
    """The price of so many blocks behind the place `first`."""
    total, last = 0, first + count
    for bound, price in tiers:
        upto = min(bound, last)
        if upto > first:
            total += (upto - first) * price
            first = upto
    return total


def affordable(one: Tiers, other: Tiers, first: int, wanted: int, funds: int) -> tuple[int, int]:
    """How many blocks behind the place `first`, at most so many, an amount pays at the dearer of two
    prices; and what these cost."""
    count = cost = 0
    while count < wanted:
        place = first + count + 1
        price = max(price_of(one, place), price_of(other, place))
        bound = min(bound for bound, _ in (*one, *other) if bound >= place)
        many = min(bound - place + 1, wanted - count)
        paid = min(many, (funds - cost) // price) if price else many
        count, cost = count + paid, cost + paid * price
        if paid < many:
            break
    return count, cost
