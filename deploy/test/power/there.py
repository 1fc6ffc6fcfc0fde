"""A machine of its own whose power can be cut: its kernel, its file system and the program go with
its disk, all at once."""
from __future__ import annotations

import pathlib
import shutil

from support.image import image
from support.machine import Machine, Network
from support.served import BOOKS
from support.turns import Turns
from support.volatile import Disk
from support.world import program

HOST, PORT, RELAY, DEVICE = "10.52.0.254", 10801, 8001, "/dev/nbd0"
# The shard listens on its machine alone; the test's HAProxy comes from outside.
UP = f"""
install -d /var/lib/ocs/01
socat TCP-LISTEN:{RELAY},fork,reuseaddr,nodelay TCP:127.0.0.1:8101,nodelay > /dev/null 2>&1 &
"""


class There:
    """The machine, with a disk that it has by NBD."""

    def __init__(self, place: pathlib.Path) -> None:
        self.network = Network(1)
        self.host = Machine(self.network, image(), place, 1)
        self.turns = Turns(place, "10.50.0.254", self.network.words, self.network.connect)
        self.where = f"{self.host.address()}:{RELAY}"
        shutil.copy(program(), self.host.shared / "ocs")
        for at, book in enumerate(BOOKS):
            (self.host.shared / f"book{at}.toml").write_text(book)

    def disk(self, file: pathlib.Path) -> Disk:
        """A disk that it may have."""
        return Disk(file, self.network.words, f"{HOST}:{PORT}")

    def start(self, disk: Disk) -> str:
        """All gets power; the disk's device."""
        self.host.start("small", disk.start().removeprefix("nbd:"))
        self.host.wait()
        self.host.sh(UP)
        return DEVICE

    def cut(self, disk: Disk, fate: str, seed: int) -> int:
        """All loses its power; how many writes the disk hadn't flushed."""
        self.host.cut()
        return disk.cut(fate, seed)

    def end(self) -> None:
        """Takes all away."""
        self.host.cut()
        self.network.end()
