"""Folders for what is half made: they go in the end, and one that a killed word left goes at the
next.

Words that write a large file make it in `scratch`, beside the file that it becomes. Each folder is
locked as long as its word lives, so that another word's isn't taken for one that was left."""
from __future__ import annotations

import contextlib
import fcntl
import os
import pathlib
import shutil
import tempfile
from collections.abc import Iterator


@contextlib.contextmanager
def scratch(place: pathlib.Path, prefix: str) -> Iterator[pathlib.Path]:
    """An empty folder in a place; its name begins with this prefix, which no other file's does."""
    sweep(place, prefix)
    lock, folder = made(place, prefix)
    try:
        yield folder
    finally:
        shutil.rmtree(folder, ignore_errors=True)
        os.close(lock)


def made(place: pathlib.Path, prefix: str) -> tuple[int, pathlib.Path]:
    """A new folder, and its lock; another one where a sweep was faster than the lock."""
    while True:
        folder = pathlib.Path(tempfile.mkdtemp(dir=place, prefix=prefix))
        lock = locked(folder)
        if lock is not None:
            return lock, folder


def sweep(place: pathlib.Path, prefix: str) -> None:
    """Removes the folders that words which were killed left behind."""
    for folder in place.glob(f"{prefix}*"):
        lock = locked(folder)
        if lock is not None:
            shutil.rmtree(folder, ignore_errors=True)
            os.close(lock)


def locked(folder: pathlib.Path) -> int | None:
    """The lock of a folder; None where another process has it, or the folder has gone."""
    try:
        lock = os.open(folder, os.O_RDONLY | os.O_DIRECTORY)
    except OSError:
        return None
    try:
        fcntl.flock(lock, fcntl.LOCK_EX | fcntl.LOCK_NB)
        if folder.exists():
            return lock
    except BlockingIOError:
        pass
    os.close(lock)
    return None
