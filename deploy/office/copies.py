"""Whole copies of shards that are served, without a stop.

A served database is locked by its process, but its files may be read. `take` reads the header of
the log, copies the database, then the log, and reads the header again. A header that is still the
same says that no checkpoint ended in between. Then the log has each page that a checkpoint may have
been writing into the database meanwhile, and its copy has every command that was answered before;
SQLite makes one whole file of both. Otherwise both are copied again.

On XFS `cp` clones both files in milliseconds. Where a large file takes longer to copy than the
shard takes from one checkpoint to the next, the process stands still (SIGSTOP) for the last try;
its requests wait in HAProxy meanwhile, and none is lost."""
from __future__ import annotations

import contextlib
import os
import pathlib
import signal
import sqlite3
import subprocess
import sys
import time
from collections.abc import Iterable, Iterator

from office import disk, program, units
from office.faults import Refused
from office.machines import second
from office.progress import shown
from office.scratch import scratch
from office.settings import Settings
from office.shards import Shard

# Tries without a stop, and seconds for a process to stand still.
TRIES, SECONDS = 4, 10
# Magic number, format, page size, count of checkpoints, salts, sums: another at each checkpoint.
HEADER = 32


def copy(
    settings: Settings, shard: Shard, file: pathlib.Path, *, is_only_read: bool = False
) -> None:
    """Copies a shard into a file, over one that was there; refused, that one stays. Where the copy
    is only read, it may be of a shard that the other of two machines serves."""
    is_second = is_only_read and second.has(settings, shard)
    if not is_second and not shard.database.is_file():
        raise Refused(f"{shard.database} isn't there")
    if not file.parent.is_dir():
        raise Refused(f"there is no folder {file.parent}")
    with scratch(file.parent, f".{file.name}-") as place:
        if is_second:
            second.take(settings, shard, place / "copy.db")
        else:
            take(shard, place / "copy.db")
        whole = place / "whole.db"
        make_whole(place / "copy.db", whole)
        program.give(settings, whole)
        os.replace(whole, file)
        disk.sync(file.parent)


@contextlib.contextmanager
def made(
    settings: Settings, shards: Iterable[Shard], *, is_only_read: bool = False
) -> Iterator[list[pathlib.Path]]:
    """Copies of shards beside their databases; they go in the end."""
    with scratch(pathlib.Path(settings.office.databases), ".copies-") as folder:
        program.give(settings, folder)
        paths = []
        for shard in shown("copy", shards):
            paths.append(folder / f"{shard}.db")
            copy(settings, shard, paths[-1], is_only_read=is_only_read)
        yield paths


@contextlib.contextmanager
def twin(settings: Settings, database: pathlib.Path) -> Iterator[pathlib.Path]:
    """A copy of a database that nobody serves, which the program may open; it goes in the end."""
    if not database.is_file():
        raise Refused(f"{database} isn't there")
    with scratch(pathlib.Path(settings.office.databases), ".copies-") as folder:
        program.give(settings, folder)
        made = folder / database.name
        make_whole(database, made)
        program.give(settings, made)
        yield made


def take(shard: Shard, file: pathlib.Path) -> None:
    """Copies a shard's database and log at a moment between two checkpoints."""
    for _ in range(TRIES):
        if is_taken(shard.database, file):
            return
    process = units.process(shard)
    if not process:
        raise Refused(f"{shard.database} is written to, and {shard.unit} isn't up")
    begun = time.monotonic()
    with paused(process):
        is_right = is_taken(shard.database, file)
    if not is_right:
        raise Refused(f"{shard.database} is written to by another process than {shard.unit}")
    print(
        f"{shard}: {TRIES} times a checkpoint ended while the file was copied, so the shard stood "
        f"still for {time.monotonic() - begun:.1f} s",
        file=sys.stderr,
    )


def is_taken(database: pathlib.Path, file: pathlib.Path) -> bool:
    """Copies a database's file, then its log; whether no checkpoint ended in between."""
    log, copied = (path.with_name(path.name + "-wal") for path in (database, file))
    before = header(log)
    cloned(database, file)
    copied.unlink(missing_ok=True)
    if before:
        cloned(log, copied)
    return before == header(log) == header(copied)


def header(log: pathlib.Path) -> bytes:
    """The header of a log; empty where there is none."""
    try:
        with log.open("rb") as file:
            return file.read(HEADER)
    except FileNotFoundError:
        return b""


def cloned(path: pathlib.Path, file: pathlib.Path) -> None:
    """Copies a file; its blocks are shared where the file system can."""
    asked = ["cp", "--reflink=auto", "--", str(path), str(file)]
    ended = subprocess.run(asked, capture_output=True, text=True, check=False)
    if ended.returncode:
        raise Refused(ended.stderr.strip())


@contextlib.contextmanager
def paused(process: int) -> Iterator[None]:
    """A process stands still meanwhile, and goes on whatever happens."""
    try:
        os.kill(process, signal.SIGSTOP)
        wait_until_still(process)
        yield
    finally:
        with units.undisturbed(), contextlib.suppress(ProcessLookupError):
            os.kill(process, signal.SIGCONT)


def wait_until_still(process: int) -> None:
    """Waits until each thread of a process stands still."""
    end = time.monotonic() + SECONDS
    while time.monotonic() < end:
        threads = pathlib.Path(f"/proc/{process}/task").glob("*/stat")
        if all(each.read_text().rpartition(")")[2].split()[0] == "T" for each in threads):
            return
        time.sleep(0.01)
    raise Refused(f"the process {process} doesn't stand still")


def make_whole(copied: pathlib.Path, whole: pathlib.Path) -> None:
    """Makes one file of a copy and its log, and sees that it is whole. Its owner alone may read it, for
    it has the codes of vouchers."""
    try:
        whole.touch(0o600)
        with (
            contextlib.closing(sqlite3.connect(copied)) as source,
            contextlib.closing(sqlite3.connect(whole)) as target,
        ):
            source.backup(target)
            told = target.execute("PRAGMA integrity_check").fetchone()[0]
    except (OSError, sqlite3.Error) as fault:
        raise Refused(f"the copy isn't whole: {fault}") from fault
    if told != "ok":
        raise Refused(f"the copy isn't whole: {told}")
    disk.sync(whole)
