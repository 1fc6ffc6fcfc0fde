"""The office on which a month is played: March 2027 in Berlin, where every answer has to be the model's."""
from __future__ import annotations

import collections
import contextlib
import datetime
import json
import os
import pathlib
import shutil
import tempfile
import time
from collections.abc import Callable, Iterator
from typing import Any

from month.asking import Asked, Doors
from month.clock import Clock
from month.machine import TOP, machine
from month.model import Body, Model
from month.stand import SET_UP, Stand
from month.traffic import TERMINATION, UPDATE, Traffic

SUBSCRIBERS = int(os.environ.get("MONTH_SUBSCRIBERS", "2000"))
FIRST = 49_200_000
ZONE = 'zone = "CET-1CEST,M3.5.0,M10.5.0/3"'
# Summer time begins on Sunday 28 March at 02:00.
SUMMER = datetime.datetime(2027, 3, 28, 1, tzinfo=datetime.timezone.utc).timestamp()
FILE = """
[office]
synchronised = false
more = {more}
[haproxy]
log = "/var/log/haproxy.json"
[keeping]
days = 2
"""
DISK = """
set -e
mkdir -p /var/lib/ocs /etc/systemd/system/haproxy.service.d
mount -t tmpfs -o size=16G tmpfs /var/lib/ocs
printf '[Service]\\nStandardOutput=append:/var/log/haproxy.json\\n' \\
    > /etc/systemd/system/haproxy.service.d/log.conf
"""


def at(day: int, hour: int, minute: int) -> int:
    """A moment of the month by a clock in Berlin."""
    shown = datetime.datetime(2027, 3, 1, tzinfo=datetime.timezone.utc)
    shown += datetime.timedelta(days=day - 1, hours=hour, minutes=minute)
    winter = int(shown.timestamp()) - 3600
    return winter if winter < SUMMER else winter - 3600


def book(name: str, *changes: tuple[str, str]) -> str:
    """A book of the examples in Berlin's time, with other prices."""
    text = (TOP / "examples" / name).read_text(encoding="utf-8")
    for old, new in (('zone = "+00:00"', ZONE), *changes):
        assert old in text
        text = text.replace(old, new)
    return text


BOOKS = (
    book("book.toml"),
    book("later-book.toml"),
    book("later-book.toml", ("60000", "70000"), ("12000", "11000"), ("30000", "35000")),
)


def is_kept(one: Asked) -> bool:
    """Whether an answer is that of an accepted request which changed something."""
    is_read = (one.body or {}).get("Requested-Action") in (2, 3)
    code = json.loads(one.answer).get("Result-Code")
    return one.method == "POST" and not is_read and code in (2001, 4010, 4012, 5031)


class Month:
    """The office, its clock and its subscribers, and what it has to have."""

    def __init__(self, office: Stand, clock: Clock, folder: pathlib.Path) -> None:
        self.office, self.clock, self.folder = office, clock, folder
        self.doors, self.model = Doors(office.machine), Model(BOOKS[0])
        self.accounts = [str(FIRST + each) for each in range(SUBSCRIBERS)]
        self.traffic = Traffic(1, self.accounts)
        self.root = pathlib.Path(f"/proc/{office.machine.first()}/root")
        self.day = 0
        self.counts = dict.fromkeys(("requests", "repeats", "kills", "words", "texts"), 0)
        self.kept_answers: list[Asked] = []  # what was accepted, which is answered so for good
        self.spent = collections.defaultdict[str, float](float)  # seconds, by what they went to
        self.kept: tuple[dict[str, Any], dict[str, Any]] = (
            {},
            {},
        )  # accounts and vouchers of a night

    def word(self, words: str, status: int = 0) -> str:
        """What a word of the office prints on both streams."""
        self.counts["words"] += 1
        with self.timed(" ".join(words.split()[:2])):
            return self.office.run(words, status)

    @contextlib.contextmanager
    def timed(self, what: str) -> Iterator[None]:
        """Adds up the seconds of something."""
        begun = time.monotonic()
        try:
            yield
        finally:
            self.spent[what] += time.monotonic() - begun

    def times(self) -> str:
        """What the seconds went to."""
        most = sorted(self.spent.items(), key=lambda each: -each[1])
        return ", ".join(f"{what} {seconds:.0f} s" for what, seconds in most[:9])

    def fetched(self, path: str) -> pathlib.Path:
        """A copy of a file of the machine, which SQLite finds by its name."""
        made = self.folder / pathlib.Path(path).name
        shutil.copyfile(self.root / path.lstrip("/"), made)
        return made

    def asks(
        self, moment: int, asked: list[Asked], meanwhile: Callable[[], None] | None = None
    ) -> None:
        """Everything is asked at a moment, and answered as the model says."""
        with self.timed("clock"):
            self.clock.set(moment)
        with self.timed("asked"):
            self.doors.ask(asked, meanwhile)
        self.counts["requests"] += len(asked)
        with self.timed("model"):
            for one in asked:
                wanted = self.model.asked(one.method, one.path, one.body, moment)
                assert one.answer == wanted, f"day {self.day}: {one}: {wanted}"
        self.kept_answers += filter(is_kept, asked)

    def balances(self, moment: int) -> None:
        """Each balance is the model's, that of clearing accounts too."""
        everyone = [*self.accounts, *self.model.clearings.values()]
        self.asks(moment, [Asked(one, "GET", f"/accounts/{one}", None) for one in everyone])

    def shards(self) -> set[str]:
        """The shards that have accounts."""
        return set(self.doors.homes.values())

    def of(self, shard: str) -> list[str]:
        """The accounts that live in a shard, its clearing account among them."""
        own = [one for one in self.accounts if self.doors.homes[one] == shard]
        return own + [each for where, each in self.model.clearings.items() if where == shard]

    def passes(self, morning: Callable[[], None], evening: Callable[[], None]) -> None:
        """A day: sessions over the change of the tariff at eight, with a kill; events; what an operator
        does in between; a night's copies."""
        self.day += 1
        day, traffic = self.day, self.traffic
        begun = traffic.begin(0.1, f"d{day}") + traffic.events(0.2, f"m{day}")
        self.asks(at(day, 7, 50), begun, self.kill)
        self.asks(at(day, 8, 20), traffic.go_on(UPDATE))
        self.asks(at(day, 8, 45), traffic.go_on(TERMINATION) + self.top_ups())
        self.clock.set(at(day, 12, 0))
        morning()
        self.asks(at(day, 20, 30), traffic.events(0.4, f"e{day}"))
        self.clock.set(at(day, 23, 0))
        evening()
        self.clock.set(at(day, 23, 30))
        self.sweep()
        self.word("office backups")

    def sweep(self) -> None:
        """All shards are swept, so that none is left for a day without a command, after which it
        wouldn't start again by itself."""
        self.word("office sweep")
        self.model.office.sweep(self.clock.now)

    def kill(self) -> None:
        """A shard's process is killed."""
        self.office.run(f"systemctl kill -s KILL ocs@{self.day % 4 + 1:02}")
        self.counts["kills"] += 1

    def top_ups(self) -> list[Asked]:
        """Credits of a shop; some end in some days, some are for one group."""
        made = []
        for account in self.traffic.some(0.05):
            amount = self.traffic.chance.choice((1_000_000, 5_000_000))
            body: Body = {"Amount": amount, "Reference": f"shop-{self.day}"}
            if self.traffic.chance.random() < 0.4:
                body["Until"] = at(self.day, 12, 0) + 86_400 * self.traffic.chance.randint(1, 9)
            if self.traffic.chance.random() < 0.3:
                body["Scope"] = self.traffic.chance.choice((10, 20, 30))
            made.append(Asked(account, "POST", f"/accounts/{account}/credits", body))
        return made


@contextlib.contextmanager
def played() -> Iterator[Month]:
    """An office on the morning of the first day."""
    with machine() as copy, tempfile.TemporaryDirectory() as folder:
        office, clock = Stand(copy), Clock(copy, at(1, 6, 0))
        for number, text in enumerate(BOOKS, 1):
            copy.write(f"/tmp/book{number}.toml", text)
        copy.run(DISK)
        copy.run(f"set -- /tmp/book1.toml\n{SET_UP}")
        copy.write("/etc/ocs/office.toml", FILE.format(more=0))
        office.run("touch /etc/ocs/moved; systemctl stop haproxy; office up")
        yield Month(office, clock, pathlib.Path(folder))
