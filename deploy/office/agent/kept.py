"""Copies of the shards that the agent reads: kept, and made anew where they are too old.

`Kept.opened` hands one out. A copy is made without a stop (`copies`), never two of a shard at once;
who reads the one before goes on with it. On the disk there is one a shard as long as the agent
lives."""
from __future__ import annotations

import contextlib
import dataclasses
import pathlib
import threading
import time
from collections.abc import Iterator

from office import copies, program, shards
from office.scratch import scratch
from office.settings import Settings
from office.shards import Shard
from office.tables import Database, opened


@dataclasses.dataclass(frozen=True)
class Copy:
    """A shard as it was at a moment, which every command has that was answered before."""

    shard: Shard
    database: Database
    moment: float  # in seconds since 1970


class Kept:
    """The copies, in a folder that goes with the agent."""

    def __init__(self, settings: Settings, folder: pathlib.Path) -> None:
        self.settings, self.folder = settings, folder
        self.locks = {one.number: threading.Lock() for one in shards.of(settings)}
        self.moments: dict[str, float] = {}

    @contextlib.contextmanager
    def opened(self, shard: Shard) -> Iterator[Copy]:
        """A copy that isn't too old, for reading."""
        with contextlib.ExitStack() as held:
            with self.locks[shard.number]:
                moment = self.fresh(shard)
                database = held.enter_context(opened(self.path(shard), is_still=True))
            yield Copy(shard, database, moment)

    @contextlib.contextmanager
    def all(self) -> Iterator[list[Copy]]:
        """Copies of all shards."""
        with contextlib.ExitStack() as held:
            yield [held.enter_context(self.opened(one)) for one in shards.of(self.settings)]

    @contextlib.contextmanager
    def twin(self, shard: Shard) -> Iterator[tuple[pathlib.Path, float]]:
        """A copy that the program may open and write to, and its moment; it goes in the end."""
        with scratch(pathlib.Path(self.settings.office.databases), ".twin-") as folder:
            program.give(self.settings, folder)
            made = folder / f"{shard}.db"
            with self.locks[shard.number]:
                moment = self.fresh(shard)
                copies.cloned(self.path(shard), made)
            program.give(self.settings, made)
            yield made, moment

    def fresh(self, shard: Shard) -> float:
        """The moment of a shard's copy, which is made anew where it is too old."""
        now = time.time()
        age = now - self.moments.get(shard.number, 0.0)
        if not 0 <= age <= self.settings.agent.fresh:
            copies.copy(self.settings, shard, self.path(shard))
            self.moments[shard.number] = now
        return self.moments[shard.number]

    def path(self, shard: Shard) -> pathlib.Path:
        """The file of a shard's copy."""
        return self.folder / f"{shard}.db"

    def drop(self, shard: Shard) -> None:
        """Has the next reader see what was just done."""
        with self.locks[shard.number]:
            self.moments.pop(shard.number, None)
