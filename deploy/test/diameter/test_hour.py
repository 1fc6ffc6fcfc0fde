"""Kamailio's calls over a longer time, in which the clock runs over its change and a later tariff book
begins: each charge is what the capture says was reported, at the price of its grant's moment; memory
stays flat.

OCS_DIAMETER_SECONDS is how long calls begin: 3600 for an hour, 600 where it isn't set."""
from __future__ import annotations

import dataclasses
import datetime
import math
import os
import pathlib
import statistics
import subprocess
import time
from collections.abc import Iterator

import pytest
from diameter.bridge import Office
from diameter.capture import is_request, shown
from diameter.kamailio import CREDIT, Calls, key_of, used_in

pytestmark = pytest.mark.slow

SECONDS = int(os.environ.get("OCS_DIAMETER_SECONDS", "600"))
# The shards' clock goes on while calls are made. A third of the time behind their begin the clock of
# Berlin goes from 02:00 to 03:00, and after another third, at a whole minute, a later book begins.
CHANGE = int(datetime.datetime(2027, 3, 28, 1, tzinfo=datetime.timezone.utc).timestamp())
LATER = CHANGE + max(1, SECONDS // 180) * 60
# Seconds from the making of the office to the first call, about.
MAKING = 60
# Micro-units of a second up to the change, up to the later book, and from there on.
PRICES = (1000, 2000, 5000)
BOOKS = ({"late": 1000, "day": 2000}, {"late": 3000, "day": 5000})
BOOK = """zone = "CET-1CEST,M3.5.0,M10.5.0/3"
currency = 978
validity = 3600
periods = ["late", "day"]
[[week]]
period = "late"
days = [1, 2, 3, 4, 5, 6, 7]
from = "00:00"
to = "02:30"
[[week]]
period = "day"
days = [1, 2, 3, 4, 5, 6, 7]
from = "02:30"
to = "24:00"
[[group]]
id = 10
unit = "time"
block = 1
slice = 10
max_grant = 3600
cycle = "none"
final = "terminate"
price = [{period = "late", tiers = [{price = %(late)d}]}, {period = "day", tiers = [{price = %(day)d}]}]
"""
ACCOUNTS, CALL_MS = 40, 20_000


@dataclasses.dataclass
class Asked:
    """A request of a session: its number, when it was asked and answered on the machine's clock, what
    it reports, and its Result-Code, empty where it had no answer."""

    number: int
    asked: float
    used: int
    answered: float = 0
    code: str = ""


def sessions(calls: Calls) -> dict[str, dict[str, list[Asked]]]:
    """The requests of each session of each account in the capture, in their order."""
    under_way: dict[tuple[str, str], Asked] = {}
    made: dict[str, dict[str, list[Asked]]] = {}
    for stream, moment, one in calls.capture.messages():
        if shown(one, "diameter.cmd.code") != "272":
            continue
        hop = stream, shown(one, "diameter.hopbyhopid")
        if is_request(one):
            account, session, number = key_of(one)
            row = Asked(int(number), moment, used_in(one))
            under_way[hop] = row
            made.setdefault(account, {}).setdefault(session, []).append(row)
        elif hop in under_way:
            row = under_way.pop(hop)
            row.answered, row.code = moment, shown(one, "diameter.Result-Code")
    return made


class Clock:
    """The shards' clock, so many seconds ahead of the machine's, by which the capture is."""

    def __init__(self, ahead: int) -> None:
        self.ahead = ahead

    def is_past(self, moment: int) -> bool:
        """Whether this moment is over."""
        return time.time() + self.ahead > moment + 1

    def prices(self, row: Asked) -> set[int]:
        """A second's price at the moment of a request: two, where it was asked before the price's
        change and answered behind it."""
        first = math.floor(row.asked + self.ahead)
        last = math.floor((row.answered or row.asked + 60) + self.ahead)
        begins, ends = (-math.inf, CHANGE, LATER), (CHANGE, LATER, math.inf)
        rows = zip(PRICES, begins, ends)
        return {each for each, begin, end in rows if first < end and last >= begin}

    def charges(self, rows: list[Asked]) -> set[int]:
        """What a session may have been charged: each report at the price of the grant before it. What
        had no answer may have been done."""
        sums = {0}
        for before, row in zip(rows, rows[1:]):
            one = {row.used * each for each in self.prices(before)}
            if row.code not in ("", "3002", "3004"):
                one = one if row.code == "2001" else {0}
            else:
                one |= {0}
            sums = {each + more for each in sums for more in one}
        return sums

    def of_account(self, parts: dict[str, list[Asked]]) -> set[int]:
        """What an account may have been charged."""
        sums = {0}
        for rows in parts.values():
            sums = {each + more for each in sums for more in self.charges(rows)}
        return sums


@pytest.fixture
def clock() -> Clock:
    """A clock that has a third of the time before its change, once all is made."""
    return Clock(CHANGE - SECONDS // 3 - MAKING - int(time.time()))


@pytest.fixture
def calls(home: pathlib.Path, tmp_path: pathlib.Path, clock: Clock) -> Iterator[Calls]:
    """The parts of a call, with an office that has the later book."""
    book, later = tmp_path / "book.toml", tmp_path / "later.toml"
    book.write_text(BOOK % BOOKS[0])
    later.write_text(BOOK % BOOKS[1])
    office = Office(tmp_path / "office", book=book)
    office.ahead, office.later = clock.ahead, (later, LATER)
    calls = Calls(home, tmp_path, office=office)
    try:
        yield calls.up()
    finally:
        calls.end()


def watched(calls: Calls, clock: Clock, process: subprocess.Popen[bytes]) -> list[int]:
    """The bridge's KiB, every ten seconds until the calls have ended. It reads its
    configuration again when the later book has begun."""
    memory, began, is_read = list[int](), time.monotonic(), False
    while process.poll() is None:
        assert time.monotonic() - began < 2 * SECONDS + 600, "the calls don't end"
        if not is_read and clock.is_past(LATER):
            calls.bridge.reload()
            is_read = True
        time.sleep(10)
        memory.append(calls.bridge.memory())
    return memory


def test_calls_over_a_change_of_the_clock_and_a_later_book(calls: Calls, clock: Clock) -> None:
    accounts = [calls.office.account(f"4917{at:03}", CREDIT) for at in range(ACCOUNTS)]
    callers = [accounts[at % ACCOUNTS] for at in range(SECONDS)]
    assert not clock.is_past(CHANGE), "the change of the clock is past before the first call"
    process = calls.call(callers, ms=CALL_MS, rate=1, seconds=2 * SECONDS + 300)
    memory = watched(calls, clock, process)
    calls.captured()
    seen = sessions(calls)
    rows = [row for parts in seen.values() for each in parts.values() for row in each]
    answers = [row.code for row in rows]
    over = sum(spans(clock, each, CHANGE) for parts in seen.values() for each in parts.values())
    later = sum(spans(clock, each, LATER) for parts in seen.values() for each in parts.values())
    charged = compared(calls, clock, accounts, seen)
    count, bad, lengths = calls.frames()
    third = len(memory) // 3
    early, late = statistics.median(memory[third : 2 * third]), statistics.median(memory[-third:])
    told = (
        f"{SECONDS} s: {len(callers)} calls, {sum(map(len, seen.values()))} sessions, {over} over the"
        f" change and {later} over the later book's begin, {len(rows)} requests,"
        f" {answers.count('2001')} answered 2001, {sum(row.used for row in rows)} s reported,"
        f" {charged} micro-units charged; {count} frames, {len(bad)} malformed, {lengths} with"
        f" Kamailio's length; KiB {early:.0f}, then {late:.0f}; sipp {process.returncode}"
    )
    print(told)
    assert set.union(*map(clock.prices, rows)) == set(PRICES) and over and later, told
    assert answers.count("2001") > 0.95 * len(rows) > SECONDS, told
    assert not bad, bad[:5]
    assert late < early + 8192, memory


def spans(clock: Clock, rows: list[Asked], moment: int) -> bool:
    """Whether a session has requests before a moment and behind it."""
    asked = [row.asked + clock.ahead for row in rows]
    return asked[0] < moment < asked[-1]


def compared(
    calls: Calls, clock: Clock, accounts: list[str], seen: dict[str, dict[str, list[Asked]]]
) -> int:
    """Each balance is its credit less what the capture says; nothing is held where each request was
    answered. The micro-units that were charged."""
    total = 0
    for account in accounts:
        credited, available, reserved, charged = calls.office.sums(account)
        parts = seen.get(account, {})
        assert charged in clock.of_account(parts), (account, charged, parts)
        assert available + reserved + charged == credited
        is_whole = all(row.code == "2001" for each in parts.values() for row in each)
        assert not (is_whole and reserved), (account, reserved)
        total += charged
    return total
