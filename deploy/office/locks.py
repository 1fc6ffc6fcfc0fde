"""Locks of this machine: what a word has to itself, as long as it lives.

`alone`, `move`, `backups`, `restore` and snapshots take one. The kernel opens it when the word ends,
killed as well."""
from __future__ import annotations

import contextlib
import fcntl
import os
import pathlib
import time
from collections.abc import Iterator

from office.faults import Refused
from office.settings import Settings

# Seconds: for another word's end, and between two looks.
PATIENCE, EACH = 15.0, 0.02


@contextlib.contextmanager
def held(
    settings: Settings, name: str, why: str, seconds: float = PATIENCE
) -> Iterator[pathlib.Path]:
    """The lock of a name, and its file; refused, with the reason, where another word keeps it."""
    folder = pathlib.Path(settings.keeping.locks)
    try:
        folder.mkdir(mode=0o755, parents=True, exist_ok=True)
        lock = os.open(folder / name, os.O_RDWR | os.O_CREAT, 0o600)
    except OSError as fault:
        raise Refused(f"{folder}: {fault.strerror}") from fault
    try:
        take(lock, why, time.monotonic() + seconds)
        yield folder / name
    finally:
        os.close(lock)


def take(lock: int, why: str, end: float) -> None:
    """Takes a lock until a moment of the monotonic clock."""
    while True:
        try:
            fcntl.flock(lock, fcntl.LOCK_EX | fcntl.LOCK_NB)
            return
        except BlockingIOError as fault:
            if time.monotonic() > end:
                raise Refused(why) from fault
        time.sleep(EACH)
