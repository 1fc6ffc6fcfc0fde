"""A shard that is served on one machine after another, and what has to be true of it after a cut.

Before anything opens the database, its rows are those of a shard that nothing happened to: after the
acknowledged commands, and those of the others that are there. Then it is served, what was under way
is asked again, and last answers come again byte for byte. Both shards are told the moment, so that
rows are compared with their moments; after each cut it is a later one, so that sessions are over on
the way and sweeps end them."""
from __future__ import annotations

import dataclasses
import pathlib
from collections import Counter, defaultdict
from typing import Protocol

from support.gateways import BOOK, Gateways
from support.turns import Turns
from support.uncut import Rows, Uncut, rows_of

GATEWAYS = 8
FIRST, STEP, VALIDITY = 1_767_607_200, 600, 3600
BOOKS = [BOOK.format(validity=VALIDITY, price=price) for price in (90000, 80000)]
# Blocks that nobody has used aren't written: a mirror would write them on both disks.
MAKE = {"ext4": "mkfs.ext4 -q -F -E nodiscard", "xfs": "mkfs.xfs -q -f -K"}
# Another process may still have the file system of a disk that has gone, in mounts of its own.
MOUNT = {"ext4": "mount", "xfs": "mount -o nouuid"}
# Waits a moment and starts no process: that would take a busy machine of a test a second.
WAITING = "exec {never}<> <(:); moment() { read -rt 0.2 -u $never || :; }\n"
SERVE = """
{program} serve {place}/01.db --port {port} --connections 1000000 --at {moment} \\
    > {folder}/shard.log 2>&1 < /dev/null & echo $! > {folder}/shard.pid
until [[ $(< {folder}/shard.log) == *listening* ]]; do
    kill -0 $(< {folder}/shard.pid) || {{ cat {folder}/shard.log; exit 1; }}
    moment
done
"""
STOP = "kill {id}; while kill -0 {id} 2> /dev/null; do moment; done"


@dataclasses.dataclass(frozen=True)
class Layout:
    """Where things are on a machine: the program, the file system, the port, the folder of the books
    and of what is written down."""

    program: str
    place: str
    port: int
    folder: str


class Host(Protocol):
    """A machine that has the shard's disk."""

    layout: Layout

    def sh(self, lines: str, seconds: float = 600) -> str:
        """What lines of bash print there; their status has to be 0."""

    def file(self, path: str) -> bytes:
        """The bytes of a file there; empty where there is none."""


# Tables that aren't an account's.
COMMON = ("meta", "books", "vouchers")


class Served:
    """The shard, its gateways, and the shard that nothing happens to."""

    def __init__(self, place: pathlib.Path, turns: Turns, kind: str) -> None:
        self.uncut, self.turns = Uncut(place, BOOKS[0]), turns
        self.gateways = Gateways(self.turns.connect, GATEWAYS, each=3, seed=kind)
        self.kind = kind
        self.moment, self.header = FIRST, b""
        # The moment of a book that is being added; what happened so far.
        self.book = self.books = self.swept = 0
        self.repeated = self.carried = self.checkpoints = 0
        self.uncut.start(self.moment)

    def make(self, host: Host, device: str) -> None:
        """A device gets a file system with a new shard."""
        place, program = host.layout.place, host.layout.program
        host.sh(f"{MAKE[self.kind]} {device} && {MOUNT[self.kind]} {device} {place}")
        host.sh(f"{program} init {place}/01.db {host.layout.folder}/book0.toml && umount {place}")

    def put(self, host: Host, device: str, files: list[str]) -> None:
        """The shard on a device has the database and the log of these paths."""
        place = host.layout.place
        host.sh(f"{MOUNT[self.kind]} {device} {place}")
        host.sh(f"cat {files[0]} > {place}/01.db && cat {files[1]} > {place}/01.db-wal")
        # Where another process has the file system in mounts of its own, umount writes nothing.
        host.sh(f"sync --file-system {place} && umount {place}")

    def begin(self, host: Host, device: str, where: str) -> None:
        """The shard is right on a machine's device, and is served there from now on."""
        host.sh(f"{MOUNT[self.kind]} {device} {host.layout.place}")
        self.compare(host)
        if self.book:
            host.sh(self.adding(host))
            self.add_to_uncut()
        self.moment += STEP
        self.uncut.end()
        self.uncut.start(self.moment)
        serve = SERVE.format(**dataclasses.asdict(host.layout), moment=self.moment)
        host.sh(WAITING + serve)
        self.turns.start(where)
        if self.gateways.answered:
            self.gateways.settle()
            self.repeated += self.gateways.repeat(last=2)
        else:
            self.gateways.open()

    def stop(self, host: Host) -> None:
        """The shard is stopped."""
        host.sh(WAITING + STOP.format(id=f"$(< {host.layout.folder}/shard.pid)"))

    def add(self, host: Host) -> None:
        """A book is being added."""
        folder = host.layout.folder
        told = f"> {folder}/book.log 2>&1 < /dev/null"
        host.sh(f"{self.adding(host)} {told} & echo $! > {folder}/shard.pid")

    def compare(self, host: Host) -> None:
        """The rows on the disk are those of the shard that nothing happened to."""
        files = [host.file(f"{host.layout.place}/{name}") for name in ("01.db", "01.db-wal")]
        self.checkpoints += bool(self.header) and files[1][:32] != self.header
        self.header = files[1][:32]
        found = rows_of(files)
        for account in self.gateways.accounts if self.gateways.answered else []:
            self.uncut.follow(account)
        self.carry_out(found)
        before = self.uncut.rows()
        is_open = self.gateways.is_sweeping and self.gateways.sweeps == self.swept
        if is_open or self.gateways.sweeps > self.swept:
            self.uncut.sweep()
        self.swept = self.gateways.sweeps
        after = self.uncut.rows()
        assert_same(found, before if is_open else after, after)

    def carry_out(self, found: Rows) -> None:
        """What wasn't answered and is there, as the rows of answers and of books have it."""
        there = {row[:4] for row in found["answers"]}
        waiting = [one.pending for one in self.gateways.accounts if one.pending]
        for command in waiting:
            if command.key in there:
                self.uncut.carry_out(command)
                self.carried += 1
        if self.book and len(found["books"]) > self.books:
            self.add_to_uncut()
            self.uncut.start(self.moment)

    def add_to_uncut(self) -> None:
        """The book is added to the shard that nothing happens to."""
        self.uncut.add(BOOKS[1], self.book)
        self.books, self.book = self.books + 1, 0

    def adding(self, host: Host) -> str:
        """The line that adds a book, which holds from a moment that is to come."""
        self.book = self.book or self.moment + STEP // 2
        layout = host.layout
        words = f"--from {self.book} {layout.place}/01.db {layout.folder}/book1.toml"
        return f"{layout.program} book {words}"

    def counts(self, cuts: int, unflushed: int) -> Counter[str]:
        """What happened so far, with as many cuts and as many writes that weren't flushed."""
        return Counter(
            {
                "cuts": cuts,
                "acknowledged commands": self.gateways.answered,
                "asked again on the way": self.repeated,
                "carried out and not answered": self.carried,
                "sweeps": self.swept,
                "books": self.books,
                "checkpoints": self.checkpoints,
                "writes that weren't flushed": unflushed,
            }
        )

    def end(self) -> None:
        """Ends what isn't a machine."""
        self.turns.end()
        self.gateways.end()
        self.uncut.end()


def said(counts: Counter[str]) -> str:
    """Counts as a line of text."""
    return ", ".join(f"{count} {what}" for what, count in counts.items())


def assert_same(found: Rows, before: Rows, after: Rows) -> None:
    """Each account's rows are those before a sweep or those after it."""
    mine, old, new = by_account(found), by_account(before), by_account(after)
    assert mine.keys() == new.keys()
    for account, rows in mine.items():
        assert rows in (old[account], new[account]), (account, differing(rows, new[account]))


def by_account(rows: Rows) -> dict[object, list[tuple[object, ...]]]:
    """The rows of each account; those of no account by their table."""
    made = defaultdict[object, list[tuple[object, ...]]](list)
    for table, each in rows.items():
        for row in each:
            made[table if table in COMMON else row[0]].append((table, *row))
    return made


def differing(found: list[tuple[object, ...]], wanted: list[tuple[object, ...]]) -> object:
    """The rows that only one of both has."""
    return [row for row in found if row not in wanted], [row for row in wanted if row not in found]
