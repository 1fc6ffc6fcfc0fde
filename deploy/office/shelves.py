"""A later book for every shard, or for none.

`office book` and `office trial` call it. Each shard's copy is asked by the program's own word before
the first shard is stopped; adding costs two starts of each shard, one after another."""
from __future__ import annotations

import argparse
import dataclasses
import pathlib
import re
import sys
import time

from office import books, copies, operate, program, shards
from office.alone import alone
from office.civil import Zone
from office.faults import Refused
from office.progress import shown
from office.settings import Settings
from office.shards import Shard
from office.tables import opened

SECONDS = re.compile(r"\d{1,10}")
# A book begins so many seconds from now at least, so that every shard has it by then.
SOON = 600
HINTS = {
    "ocs: shelf fault 2": "16 books: `office carry` makes room for more",
    "ocs: shelf fault 3": "it begins before the last book or the last command",
    "ocs: shelf fault 4": "it has another zone or currency",
    "ocs: shelf fault 5": "a rating group of the last book is missing",
    "ocs: shelf fault 6": "a rating group has another unit, block or cycle",
}


@dataclasses.dataclass(frozen=True)
class Later:
    """A book that is to follow from a moment on, in the zone of the office's books."""

    file: pathlib.Path
    text: str
    moment: int
    zone: Zone

    def shown(self) -> str:
        """The moment as people read it, and as the program takes it."""
        return f"from {self.zone.shown(self.moment)} in {self.zone.text} ({self.moment})"


def later(copy: pathlib.Path, file: pathlib.Path, typed: str) -> Later:
    """A book of a file, from a moment that was typed."""
    try:
        text = file.read_bytes().decode()
    except (OSError, UnicodeDecodeError) as fault:
        raise Refused(f"{file}: {fault}") from fault
    with opened(copy) as database:
        zone = books.shelf(database)[0].zone
    moment = int(typed) if SECONDS.fullmatch(typed) else zone.typed(typed)
    return Later(file, text, moment, zone)


def has(database: pathlib.Path, book: Later) -> bool:
    """Whether a database has the book from that moment on."""
    with opened(database) as read:
        return (book.text, book.moment) in read.books()


def judged(settings: Settings, copy: pathlib.Path, book: Later) -> str:
    """What the program says of the book over a copy, to which it adds it; empty if it may follow."""
    with program.handed(settings, "book", book.text.encode()) as made:
        ended = program.run(settings, "book", copy, made, "--from", book.moment)
    told = (ended.stdout + ended.stderr).strip()
    if told == "ok":
        return ""
    return f"{told} ({HINTS[told]})" if told in HINTS else told


def add_everywhere(settings: Settings, arguments: argparse.Namespace) -> int:
    """Adds the book of the words to every shard; 1 where one doesn't have it in the end."""
    with copies.made(settings, shards.of(settings)) as made:
        book = later(made[0], arguments.book, arguments.moment)
        print(book.shown(), file=sys.stderr)
        having = {copy.stem for copy in made if has(copy, book)}
        judge(settings, book, [copy for copy in made if copy.stem not in having], bool(having))
    failed = 0
    for shard in shown("book", shards.of(settings)):
        if str(shard) in having:
            print(f"{shard} has the book")
        elif arguments.dry_run:
            print(f"{shard} would get the book")
        else:
            failed |= added(settings, shard, book)
    return failed


def judge(settings: Settings, book: Later, asked: list[pathlib.Path], is_begun: bool) -> None:
    """Refuses the book for all shards where one of these copies does."""
    if asked and not is_begun and book.moment < time.time() + SOON:
        raise Refused(f"the book begins in less than {SOON} s: no shard would have it in time")
    told = {copy.stem: judged(settings, copy, book) for copy in asked}
    faults = [f"{shard} {fault}" for shard, fault in told.items() if fault]
    if faults:
        raise Refused("\n  ".join(["no shard gets the book:", *faults]))


def added(settings: Settings, shard: Shard, book: Later) -> int:
    """Adds the book to a shard that is stopped for it; 1 where it doesn't have it then."""
    with alone(settings, shard):
        operate.is_now(shard, operate.last_moment(shard))
        told = "" if has(shard.database, book) else judged(settings, shard.database, book)
        done = f"book {book.file.resolve()} {book.shown()}"
        operate.record(done, shard, told or "has the book", operate.user())
    print(f"{shard} {told or 'has the book'}", flush=True)
    return 1 if told else 0
