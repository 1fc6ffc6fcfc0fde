"""A shard whose log is almost full: the next commands bring a checkpoint."""
from __future__ import annotations

import pathlib
import random

from support.gateways import Door, Gateways
from support.served import BOOKS, FIRST, GATEWAYS, Served
from support.uncut import Uncut

# Of the engine: a log's header, a frame's with its page; frames until the log is written back.
HEADER, FRAME, FULL = 32, 24 + 2048, 16_000
# So many frames are left, some ten commands.
LEFT = 150


class Filled:
    """Its files, and the accounts with the commands that filled it."""

    def __init__(self, place: pathlib.Path) -> None:
        place.mkdir()
        uncut = Uncut(place, BOOKS[0])
        uncut.start(FIRST)
        try:
            self.gateways = Gateways(uncut.connect, GATEWAYS, each=3, seed="filled")
            self.gateways.open()
            self.fill(uncut)
            self.files = uncut.files()
        finally:
            uncut.end()

    def fill(self, uncut: Uncut) -> None:
        """Asks until the log is almost full."""
        chance, door = random.Random("filled"), Door(uncut.connect)
        log = uncut.database.with_name("uncut.db-wal")
        while frames(log) < FULL - LEFT:
            account = chance.choice(self.gateways.accounts)
            account.pending = account.next(chance)
            assert self.gateways.once(door, account), self.gateways.others
        door.close()

    def give(self, served: Served) -> None:
        """Another shard that nothing happens to, and its gateways, go on from here."""
        served.uncut.end()
        served.uncut.become(self.files, self.gateways.accounts)
        served.uncut.start(served.moment)
        served.gateways.take(self.gateways.shares)


def frames(log: pathlib.Path) -> int:
    """How many frames of a log are of its header; zeros ahead of them are none."""
    with log.open("rb") as file:
        salts = file.read(HEADER)[16:24]
        low, high = 0, (log.stat().st_size - HEADER) // FRAME
        while low < high:
            middle = (low + high) // 2
            file.seek(HEADER + middle * FRAME)
            is_one = file.read(16)[8:] == salts
            low, high = (middle + 1, high) if is_one else (low, middle)
    return low
