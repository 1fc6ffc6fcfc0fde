"""One account by the charging rules (docs/RULES.md), as a second hand reckons it.

`reckoned` hands each accepted command over in order, with its moment; what it answers has to be the
answer that is kept. Nothing of it is shared with the program. A command costs the account's live
buckets and open sessions."""
from __future__ import annotations

import collections
import dataclasses
from collections.abc import Iterable, Iterator
from typing import Any

from office import books
from office.books import Book, Group

INITIAL, UPDATE, TERMINATION, EVENT = 1, 2, 3, 4
DEBIT, REFUND = 0, 1
DONE, DENIED, LIMIT, UNRATED = 2001, 4010, 4012, 5031
SERVICES, WANTED, USED = (
    "Multiple-Services-Credit-Control",
    "Requested-Service-Unit",
    "Used-Service-Unit",
)
# The order in which the parts of a report are rated, by Tariff-Change-Usage; 1 is after the switch.
PARTS = (None, 0, 2, 1)
AFTER = 1
Object = dict[str, Any]


class Differs(Exception):
    """What is kept isn't what the rules give."""


@dataclasses.dataclass
class Bucket:
    """A bucket: money, or blocks of a rating group."""

    number: int
    starts: int
    ends: int
    scope: int | None
    is_blocks: bool
    credited: int
    charged: int = 0
    held: int = 0

    def left(self) -> int:
        """What is neither charged nor held."""
        return self.credited - self.charged - self.held

    def pays(self, group: int, moment: int) -> bool:
        """Whether it is eligible for a group at a moment."""
        fits = self.scope == group or (self.scope is None and not self.is_blocks)
        return fits and self.starts <= moment < self.ends

    def columns(self, moment: int) -> tuple[int, int, int, int]:
        """What is available, reserved, charged and expired at a moment."""
        left = self.left()
        is_over = moment >= self.ends
        return 0 if is_over else left, self.held, self.charged, left if is_over else 0


@dataclasses.dataclass
class Grant:
    """A reservation: its book, its periods, what it holds by bucket."""

    book: int  # its number, from 1 on
    before: str
    after: str
    holds: dict[int, int]


@dataclasses.dataclass
class Session:
    """A session that was opened. It is over at `ends`: two validity times after its last touch; a
    request that was accepted later says that it was live until then."""

    ends: int
    is_open: bool = True
    used: dict[int, int] = dataclasses.field(default_factory=dict)
    grants: dict[int, Grant] = dataclasses.field(default_factory=dict)
    known: set[int] = dataclasses.field(default_factory=set)  # groups that have a row


@dataclasses.dataclass(frozen=True)
class Charge:
    """A use as the tables have it."""

    moment: int
    session: str
    rating_group: int
    blocks: int
    rated: int
    collected: int
    covered: int


class Ledger:
    """An account: buckets, sessions, counters, charges."""

    def __init__(self, shelf: list[Book], last: dict[str, int]) -> None:
        self.shelf, self.last = shelf, last  # the number of each session's last request
        self.now = 0
        self.buckets: list[Bucket] = []
        self.sessions: dict[str, Session] = {}
        self.events: dict[tuple[str, int], int] = {}  # units of debits, by session and group
        self.counters = collections.Counter[tuple[int, int]]()
        self.charges: list[Charge] = []

    # ---- what holds at a moment

    def book(self, moment: int) -> Book:
        """The book at a moment."""
        return books.at(self.shelf, moment)

    def advance(self, moment: int) -> None:
        """Goes on to a moment: sessions that are over by then let go of what they hold."""
        self.now = moment
        for session in self.sessions.values():
            if session.is_open and session.ends <= moment:
                self.close(session)

    def end_of(self, asked: Object, moment: int) -> int:
        """When a session is over that a request touches at a moment."""
        if asked["CC-Request-Number"] < self.last.get(asked["Session-Id"], 0):
            return FOREVER
        return moment + 2 * self.book(moment).validity

    def close(self, session: Session) -> None:
        """Ends a session and its reservations."""
        session.is_open = False
        for group in list(session.grants):
            self.release(session, group)

    def release(self, session: Session, group: int) -> None:
        """Ends a reservation; what it holds is let go."""
        for number, amount in session.grants.pop(group).holds.items():
            self.buckets[number - 1].held -= amount

    def eligible(self, is_blocks: bool, group: int, moment: int) -> list[tuple[Bucket, int]]:
        """The buckets of a kind that pay for a group, in order, with what each has."""
        found = [
            one
            for one in self.buckets
            if one.is_blocks == is_blocks and one.left() and one.pays(group, moment)
        ]
        return [(one, one.left()) for one in in_order(found)]

    def cycle(self, group: Group, moment: int) -> tuple[int, int]:
        """The key of a group's counter at a moment."""
        return group.number, self.book(moment).zone.cycle(group.cycle, moment)

    # ---- commands

    def credit(self, one: Bucket) -> None:
        """A new bucket."""
        self.buckets.append(one)

    def ask(self, asked: Object, answer: Object, moment: int) -> None:
        """An accepted request with the answer that is kept; raises Differs where the rules give
        another one."""
        self.advance(moment)
        kind = asked["CC-Request-Type"]
        if kind == EVENT:
            made = self.event(asked, answer, moment)
        elif kind == INITIAL:
            made = self.initial(asked, answer, moment)
        else:
            made = self.goes_on(asked, answer, moment)
        kept = {name: value for name, value in answer.items() if not name.startswith("CC-")}
        kept.pop("Session-Id", None)
        if kept != made:
            raise Differs(f"kept {short(kept)}, reckoned {short(made)}")

    def initial(self, asked: Object, answer: Object, moment: int) -> Object:
        """The answer to an initial request; a bar leaves no other trace than its own code."""
        if answer.get("Result-Code") == DENIED and SERVICES not in answer:
            return {"Result-Code": DENIED}
        session = Session(self.end_of(asked, moment))
        services = asked.get(SERVICES, [])
        told = [self.granted(session, service, moment, {}) for service in services]
        if all(one["Result-Code"] != DONE for one in told):
            return {"Result-Code": told[0]["Result-Code"]}
        self.sessions[asked["Session-Id"]] = session
        return {SERVICES: told, "Result-Code": DONE}

    def goes_on(self, asked: Object, answer: Object, moment: int) -> Object:
        """The answer to an update or a termination."""
        name, groups = asked["Session-Id"], self.book(moment).groups
        session = self.sessions.get(name)
        if session is None or not session.is_open:
            raise Differs("its session wasn't live")
        services = asked.get(SERVICES, [])
        for service in services:
            if service["Rating-Group"] in groups:
                self.settle(name, session, service, moment)
        session.ends = self.end_of(asked, moment)
        kept = answer.get(SERVICES, [])
        told = [
            self.served(session, service, moment, one)
            for service, one in zip(services, kept + [{}] * len(services))
        ]
        if asked["CC-Request-Type"] == TERMINATION:
            self.close(session)
        return {SERVICES: told, "Result-Code": DONE}

    def served(self, session: Session, service: Object, moment: int, kept: Object) -> Object:
        """What a service that was settled is answered."""
        group = service["Rating-Group"]
        if WANTED in service:
            return self.granted(session, service, moment, kept)
        is_rated = group in self.book(moment).groups
        return {"Rating-Group": group, "Result-Code": DONE if is_rated else UNRATED}

    def granted(self, session: Session, service: Object, moment: int, kept: Object) -> Object:
        """What a service that asks for units is answered."""
        number = service["Rating-Group"]
        group = self.book(moment).groups.get(number)
        if group is None:
            return {"Rating-Group": number, "Result-Code": UNRATED}
        if kept.get("Result-Code") == DENIED:
            return {"Rating-Group": number, "Result-Code": DENIED}
        return self.reserve(session, group, service[WANTED].get(group.member), moment)

    def reserve(self, session: Session, group: Group, asked: int | None, moment: int) -> Object:
        """Grants units, and holds what pays for them."""
        book = self.book(moment)
        if group.number in session.grants:
            self.release(session, group.number)
        wanted = min(group.slice if asked is None else asked, group.max_grant)
        before, place = session.used.get(group.number, 0), self.counters[self.cycle(group, moment)]
        switch = book.switch(moment)
        periods = book.period(moment), book.period(moment if switch is None else switch)
        blocks = started(before, wanted, group.block)
        free = self.eligible(True, group.number, moment)
        covered = min(blocks, total(free))
        money = self.eligible(False, group.number, moment)
        tiers = [group.tiers[period] for period in periods]
        paid, cost = books.affordable(
            tiers[0], tiers[1], place + covered, blocks - covered, total(money)
        )
        most = -(-before // group.block) * group.block + (covered + paid) * group.block - before
        units = wanted if covered + paid == blocks else most
        if units == 0:
            return {"Rating-Group": group.number, "Result-Code": LIMIT}
        holds = dict(shares(free, covered)) | dict(shares(money, cost))
        for number, amount in holds.items():
            self.buckets[number - 1].held += amount
        session.grants[group.number] = Grant(self.shelf.index(book) + 1, *periods, holds)
        session.known.add(group.number)
        return answered(book, group, units, wanted, switch, moment)

    def settle(self, name: str, session: Session, service: Object, moment: int) -> None:
        """Settles a report, and ends the group's reservation."""
        number = service["Rating-Group"]
        grant = session.grants.get(number)
        if USED in service:
            book = self.book(moment) if grant is None else self.shelf[grant.book - 1]
            group = book.groups[number]
            parts = list(parts_of(service[USED], group, grant, self.book(moment).period(moment)))
            before = session.used.get(number, 0)
            self.pay(name, group, before, parts, moment, grant)
            session.used[number] = before + sum(units for units, _ in parts)
            session.known.add(number)
        if grant is not None:
            self.release(session, number)

    def pay(
        self,
        session: str,
        group: Group,
        before: int,
        parts: list[tuple[int, str]],
        moment: int,
        grant: Grant | None,
    ) -> Charge:
        """Charges a use: what allowances cover of its blocks, and what money pays of the rest."""
        held = [] if grant is None else self.held_by(grant)
        rows = {
            kind: [(one, amount) for one, amount in held if one.is_blocks == kind]
            + self.eligible(kind, group.number, moment)
            for kind in (True, False)
        }
        key = self.cycle(group, moment)
        blocks = started(before, sum(units for units, _ in parts), group.block)
        covered = min(blocks, total(rows[True]))
        price = rated(group, self.counters[key], before, parts, covered)
        collected = min(price, total(rows[False]))
        for number, amount in (*shares(rows[True], covered), *shares(rows[False], collected)):
            self.buckets[number - 1].charged += amount
        self.counters[key] += blocks
        self.charges.append(
            Charge(moment, session, group.number, blocks, price, collected, covered)
        )
        return self.charges[-1]

    def held_by(self, grant: Grant) -> list[tuple[Bucket, int]]:
        """What a reservation holds, in the order of the buckets."""
        found = [self.buckets[number - 1] for number in grant.holds]
        return [(one, grant.holds[one.number]) for one in in_order(found)]

    def event(self, asked: Object, answer: Object, moment: int) -> Object:
        """The answer to a debit or a refund."""
        if asked["Requested-Action"] == REFUND:
            amount = micros(asked[WANTED]["CC-Money"]["Unit-Value"])
            self.credit(Bucket(len(self.buckets) + 1, moment, NO_END, None, False, amount))
            return {"Result-Code": DONE}
        if answer.get("Result-Code") == DENIED:
            return {"Result-Code": DENIED}
        service, book = asked[SERVICES][0], self.book(moment)
        group = book.groups.get(service["Rating-Group"])
        if group is None:
            return {"Result-Code": UNRATED}
        units = service.get(WANTED, {}).get(group.member, group.slice)
        parts = [(units, book.period(moment))]
        covered = min(
            started(0, units, group.block), total(self.eligible(True, group.number, moment))
        )
        price = rated(group, self.counters[self.cycle(group, moment)], 0, parts, covered)
        if price > total(self.eligible(False, group.number, moment)):
            return {"Result-Code": LIMIT}
        self.pay(asked["Session-Id"], group, 0, parts, moment, None)
        self.events[asked["Session-Id"], group.number] = units
        told = {"Granted-Service-Unit": {group.member: units}, "Rating-Group": group.number}
        return {SERVICES: [told | {"Result-Code": DONE}], "Result-Code": DONE}

    def signature(self) -> tuple[object, ...]:
        """What the account is now, for a comparison of two ways to it."""
        buckets = tuple((one.number, one.charged, one.held) for one in self.buckets)
        grants = tuple(
            (name, group, grant.book, grant.before, grant.after, tuple(sorted(grant.holds.items())))
            for name, session in self.sessions.items()
            for group, grant in session.grants.items()
        )
        return buckets, grants


NO_END = 4_102_444_800
FOREVER = 2 * NO_END


def in_order(found: Iterable[Bucket]) -> list[Bucket]:
    """Buckets in the order in which they pay."""
    return sorted(found, key=lambda one: (one.ends, one.number))


def total(rows: list[tuple[Bucket, int]]) -> int:
    """What these have together."""
    return sum(amount for _, amount in rows)


def shares(rows: list[tuple[Bucket, int]], amount: int) -> Iterator[tuple[int, int]]:
    """What each bucket pays of an amount, the first ones first."""
    for bucket, has in rows:
        paid = min(has, amount)
        amount -= paid
        if paid:
            yield bucket.number, paid


def started(before: int, units: int, block: int) -> int:
    """The blocks that so many units more start."""
    return -(-(before + units) // block) - -(-before // block)


def rated(group: Group, place: int, before: int, parts: list[tuple[int, str]], covered: int) -> int:
    """The price of the blocks that parts start behind a place, of which the first are covered."""
    price = 0
    for units, period in parts:
        count = started(before, units, group.block)
        free = min(covered, count)
        price += books.rated(group.tiers[period], place + free, count - free)
        covered, place, before = covered - free, place + count, before + units
    return price


def parts_of(
    used: list[Object], group: Group, grant: Grant | None, here: str
) -> Iterator[tuple[int, str]]:
    """The parts of a report in their order: units, and the period that prices them."""
    for tag in PARTS:
        for part in used:
            if part.get("Tariff-Change-Usage") == tag:
                period = here if grant is None else grant.before
                if grant is not None and tag == AFTER:
                    period = grant.after
                yield part[group.member], period


def answered(
    book: Book, group: Group, units: int, wanted: int, switch: int | None, moment: int
) -> Object:
    """The service of an answer that grants units."""
    told: Object = {group.member: units}
    if switch is not None:
        told["Tariff-Time-Change"] = switch
    made = {
        "Granted-Service-Unit": told,
        "Rating-Group": group.number,
        "Result-Code": DONE,
        "Validity-Time": book.validity_from(moment),
    }
    return made | ({"Final-Unit-Indication": group.final} if units < wanted else {})


def micros(value: Object) -> int:
    """The micro-units of a Unit-Value (RFC 8506, 8.8)."""
    return int(value["Value-Digits"] * 10 ** (6 + value.get("Exponent", 0)))


def short(told: Object) -> str:
    """An answer for a line."""
    return str(told)[:300]
