"""The archives, open from one request of the service to the next.

`Door` calls `looked_at`. Opening a file costs SQLite a reading of its tables, a look at one that is open a
search by key; so all that were opened stay so, and one request looks at a time. A file that has gone, or
whose place another one took, is closed at the next look; one whose turn isn't ended yet is still written,
and is opened for each look."""
from __future__ import annotations

import contextlib
import pathlib
import sqlite3
import threading
from collections.abc import Iterator

from office import places
from office.archive.past import File, Part
from office.faults import Refused
from office.tables import opened

Key = tuple[pathlib.Path, int, int]


class OpenFiles:
    """Archives that are open for reading."""

    def __init__(self) -> None:
        self.lock = threading.Lock()
        self.held: dict[Key, tuple[contextlib.ExitStack, Part]] = {}

    @contextlib.contextmanager
    def looked_at(self, those: list[File]) -> Iterator[list[Part]]:
        """These archives, the first ones first, for one request. A fault of SQLite is `Refused`."""
        with self.lock:
            keys = [key_of(one) for one in those]
            self.close(set(self.held) - set(keys))
            try:
                yield [self.part(key, one) for key, one in zip(keys, those)]
            except sqlite3.Error as fault:
                self.close(set(self.held))
                raise Refused(f"an archive: {fault}") from fault
            finally:
                self.close({key for key in self.held if key[0].suffix == places.TURNING})

    def part(self, key: Key, one: File) -> Part:
        """An archive, opened where it isn't open yet."""
        if key not in self.held:
            with contextlib.ExitStack() as stack:
                database = stack.enter_context(opened(one.path, is_still=True))
                self.held[key] = stack.pop_all(), Part(one, database)
        return self.held[key][1]

    def close(self, those: set[Key]) -> None:
        """Closes some that are open."""
        for key in those:
            self.held.pop(key)[0].close()


def key_of(one: File) -> Key:
    """What says that a file is still the same."""
    try:
        told = one.path.stat()
    except OSError as fault:
        raise Refused(f"{one.path}: {fault.strerror}") from fault
    return one.path, told.st_ino, told.st_mtime_ns
