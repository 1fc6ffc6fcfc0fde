"""Cuts of the power of a shard's disk, one after another.

At a random moment under load, or while a book is added, the power is cut; then there is power again,
the file system replays its journal, and what has to be true of the shard is `served`'s."""
from __future__ import annotations

import contextlib
import pathlib
import random
import time
from collections import Counter
from collections.abc import Iterator
from typing import Protocol

from support.filled import Filled
from support.served import Host, Served, said
from support.turns import Turns
from support.volatile import FATES, Disk
from support.waiting import until

SIZE = 400 << 20
# Each third cut comes while a book is added.
BOOK = 3
# Seconds from one look for a checkpoint to the next, and at most until the cut: a checkpoint takes some
# tens of milliseconds, and on a busy machine some hundreds.
LOOKS, MIDST = 0.001, (0.01, 0.03, 0.3)


class Powered(Protocol):
    """What has a disk with a shard, and can lose its power."""

    turns: Turns

    @property
    def host(self) -> Host:
        """Where the shard is served."""

    @property
    def where(self) -> str:
        """Where it is asked."""

    def disk(self, file: pathlib.Path) -> Disk:
        """A disk that it may have."""

    def start(self, disk: Disk) -> str:
        """Gives all power; the disk's device."""

    def cut(self, disk: Disk, fate: str, seed: int) -> int:
        """Cuts all power; how many writes the disk hadn't flushed."""


def rounds(place: pathlib.Path, powered: Powered, kind: str, count: int) -> Counter[str]:
    """So many cuts, and in the end each acknowledged command is asked again; what happened."""
    with standing(place, powered, kind) as drill:
        for at in range(1, count + 1):
            drill.begin()
            drill.add_book() if at % BOOK == 0 else drill.ask()
            print(f"{kind}: cut {at}: {drill.cut(drill.chance.choice(FATES))}", flush=True)
        drill.begin()
        gateways = drill.served.gateways
        assert gateways.repeat() == gateways.answered
        counts = drill.served.counts(count, drill.unflushed)
        print(f"{kind}: {said(counts)}", flush=True)
        return counts


def checkpoints(place: pathlib.Path, powered: Powered, kind: str, filled: Filled) -> bool:
    """A cut while the log is written back; whether that had come to its end."""
    with standing(place, powered, kind) as drill:
        drill.fill(filled)
        drill.begin()
        before = drill.served.header
        drill.ask_until_written_back()
        told = drill.cut(drill.chance.choice(FATES))
        drill.begin()
        is_ended = drill.served.header != before
        print(f"{kind}: {told}, the checkpoint had {'' if is_ended else 'not '}ended", flush=True)
        return is_ended


class Drill:
    """A disk, the shard on it, and what happens to it."""

    def __init__(self, place: pathlib.Path, powered: Powered, kind: str) -> None:
        self.powered, self.disk = powered, powered.disk(place / "disk.img")
        self.served = Served(place, powered.turns, kind)
        self.chance, self.unflushed = random.Random(f"{kind} {place.name}"), 0

    def make(self) -> None:
        """The disk has a file system with a new shard."""
        with self.disk.file.open("wb") as made:
            made.truncate(SIZE)
        device = self.powered.start(self.disk)
        self.served.make(self.powered.host, device)
        self.powered.cut(self.disk, "lost", 0)

    def fill(self, filled: Filled) -> None:
        """The disk has a shard whose log is almost full."""
        filled.give(self.served)
        device = self.powered.start(self.disk)
        names = [f"{self.powered.host.layout.folder}/filled{end}" for end in ("", "-wal")]
        for name, data in zip(names, filled.files):
            pathlib.Path(name).write_bytes(data)
        self.served.put(self.powered.host, device, names)
        self.powered.cut(self.disk, "lost", 0)

    def ask_until_written_back(self) -> None:
        """The gateways ask until the log is being written into the database."""
        database = pathlib.Path(self.powered.host.layout.place) / "01.db"
        before = database.stat().st_mtime_ns
        self.served.gateways.start()
        until(lambda: database.stat().st_mtime_ns != before, "a checkpoint", 600, LOOKS)
        time.sleep(self.chance.choice(MIDST) * self.chance.random())

    def begin(self) -> None:
        """There is power again: what the disk has is right, and is served."""
        device = self.powered.start(self.disk)
        self.served.begin(self.powered.host, device, self.powered.where)

    def ask(self) -> None:
        """The gateways ask for a while, and half of the time another process writes to the same
        file system, so that more is under way than the shard's log."""
        self.served.gateways.start()
        time.sleep(self.chance.uniform(0.5, 3))
        if self.chance.random() < 0.5:
            other = f"{self.powered.host.layout.place}/other"
            line = f"dd if=/dev/zero of={other} bs=64k count=400; rm -f {other}"
            self.powered.host.sh(f"({line}) > /dev/null 2>&1 < /dev/null &")
            time.sleep(self.chance.uniform(0, 2))

    def add_book(self) -> None:
        """The shard is stopped, and a book is being added."""
        self.served.stop(self.powered.host)
        self.served.add(self.powered.host)
        time.sleep(self.chance.uniform(0, 0.5))

    def cut(self, fate: str) -> str:
        """The power is cut; what is told of it."""
        lost = self.powered.cut(self.disk, fate, self.chance.randrange(2**32))
        self.served.turns.end()
        self.served.gateways.end()
        self.unflushed += lost
        return f"{self.served.gateways.answered} answered, {lost} writes not flushed and {fate}"


@contextlib.contextmanager
def standing(place: pathlib.Path, powered: Powered, kind: str) -> Iterator[Drill]:
    """A drill that is made; its parts go in the end."""
    drill = Drill(place, powered, kind)
    try:
        drill.make()
        yield drill
    finally:
        drill.served.end()
        drill.disk.end()
