"""An office whose clock runs, with its agent and whoever comes to its doors, for the table of tasks."""
from __future__ import annotations

import contextlib
import itertools
import pathlib
import tempfile
import time
from collections.abc import Iterator
from typing import Any

from support.callers import Caller, debit, opened
from support.waiting import until
from support.world import TOP, World, done, program

from console import behind
from console.office import ACCOUNT, DAY, FAR, FILE, SHARDS
from console.office import home, imported, initial, line, made, poor, replayed, script
from console.person import Person
from console.units import Units

LATER_BOOK = TOP / "examples/later-book.toml"
# Who comes: at which door, and by which name.
PEOPLE = {"shop": ("counter", ""), "operator": ("desk", ""), "officer": ("operators", "rosa")}
MONTH = time.strftime("%Y%m", time.gmtime())


class Desk:
    """The office, and what it answers beside its page."""

    def __init__(self, world: World, people: dict[str, Person]) -> None:
        self.world, self.people = world, people
        self.numbers, self.codes = map(str, itertools.count(60000)), iter(FAR)

    def ask(self, method: str, path: str, body: object = None) -> Any:
        """What the office answers a script."""
        return script(self.world).ask(method, path, body).body

    def told(self, target: str) -> Any:
        """What the agent answers an operator."""
        return behind.told(self.world, target)

    def tried(self, book: pathlib.Path, start: str) -> Any:
        """What the agent answers an operator to the trial of a book."""
        desk = Caller(self.world, self.world.doors["desk"])
        path, words = f"/office/agent/trial?from={start}", {"Content_Type": "application/toml"}
        return desk.ask("POST", path, book.read_text(), **words).body["prices"]

    def statement(self, account: str, *words: str) -> str:
        """A month's statement, by the office's own word."""
        return self.world.command("statement", account, MONTH, *words)

    def new(self, amount: int = 1_000_000) -> str:
        """A new account with money, of another shard than the vouchers."""
        here = home(self.world, ACCOUNT)
        number = next(one for one in self.numbers if home(self.world, one) == here)
        return opened(script(self.world), number, amount)

    def session(self, account: str) -> str:
        """A session of the account is open; its name."""
        name = f"voice-{account}"
        assert self.ask("POST", "/ccr", initial(account, name))["Result-Code"] == 2001
        return name

    def line(self, request: str) -> dict[str, Any]:
        """The doors' line of a request whose id begins so."""

        def lines() -> list[dict[str, Any]]:
            return [one for one in self.world.lines() if one["id"].startswith(request)]

        until(lines, f"the line of {request}")
        return lines()[-1]


@contextlib.contextmanager
def at_work() -> Iterator[Desk]:
    """The office is up, and somebody of each kind is at its page."""
    with contextlib.ExitStack() as ends:
        place = pathlib.Path(ends.enter_context(tempfile.TemporaryDirectory()))
        text = FILE.replace("[agent]\n", "[agent]\nfresh = 1\n")
        (place / "office").mkdir()
        world = made(place / "office", None, lately, text)
        ends.callback(world.end)
        units = Units(world)
        ends.callback(units.end)
        agent = behind.Agent(world, f"{units.folder}:")
        agent.start()
        ends.callback(agent.kill)
        people = {}
        for who, (door, name) in PEOPLE.items():
            people[who] = Person(place / who)
            ends.callback(people[who].end)
            people[who].go_to(world.doors[door], name)
        desk = Desk(world, people)
        desk.session(ACCOUNT)
        yield desk
        for who, person in people.items():
            assert (who, person.faults()) == (who, [])


def lately(world: World) -> None:
    """Charges of the last days of this month: paid, covered by an allowance, and one that nothing was left
    for; vouchers of the other shard, and a book that comes tomorrow."""
    now = int(time.time())
    begin = max(month_begun(now), now - 3 * DAY)
    charged(world, ACCOUNT, begin, now)
    poor(world, begin, now)
    here = home(world, ACCOUNT)
    imported(world, 1 + here % SHARDS, FAR, now)
    for at in range(1, SHARDS + 1):
        done(program(), "book", "--from", now + DAY, world.database(at), LATER_BOOK)


def month_begun(now: int) -> int:
    """The first moment of a moment's month."""
    days = time.gmtime(now).tm_mday - 1
    return now - now % DAY - days * DAY


def charged(world: World, account: str, begin: int, now: int) -> None:
    """An account with twelve debits between two moments."""
    database = world.database(home(world, account))
    done(program(), "open", database, account, "--at", begin)
    done(program(), "credit", database, account, 20_000_000, "cash-1", "--at", begin)
    done(program(), "allow", database, account, 6, "bundle", "--scope", 10, "--at", begin)
    replayed(database, debits(account, begin, now))


def debits(account: str, begin: int, now: int) -> list[str]:
    """Dated lines of debits of seconds and of events, in turn."""
    lines = []
    for at in range(12):
        group, unit, many = ((10, "CC-Time", 90), (30, "CC-Service-Specific-Units", 2))[at % 2]
        moment = begin + (now - begin) * at // 12
        lines.append(line(moment, debit(account, f"d{at}"), group, {unit: many}))
    return lines
