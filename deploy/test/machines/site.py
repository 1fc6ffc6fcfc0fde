"""A site of MACHINES.md: two machines with systemd, volumes of LVM and fence devices, a third one that
votes, and HAProxy's doors with TLS. It is set up by the page's own blocks, letter by letter."""
from __future__ import annotations

import http.client
import pathlib
import random
import ssl
import threading

from support import prompt
from support.image import image
from support.machine import Inside, Machine, Network
from support.volatile import FATES, Disk

from machines.board import Board

HOST, PORTS, SIZE = "10.52.0.254", 10800, 1 << 30
ADDRESS, NAME = "10.50.0.100", "office.example"
# The doors of office.toml for gateways and for operators, and who comes there.
DOOR_OF_GATEWAYS, DOOR_OF_OPERATORS = (8443, "pgw-1"), (8445, "ada")
SECONDS = 180
SHARDS = ("01", "02")


class Site:
    """The machines, their disks, and the devices that take their power away."""

    def __init__(self, place: pathlib.Path) -> None:
        self.place, self.network = place, Network(3)
        self.machines = {
            f"m{number}": Machine(self.network, image(), place, number) for number in (1, 2, 3)
        }
        self.disks = {name: self.disk(name) for name in ("m1", "m2")}
        self.chance, self.unflushed = random.Random(place.name), 0
        self.lock = threading.RLock()
        self.board = Board(self.network, HOST, self)

    def disk(self, name: str) -> Disk:
        """A machine's disk for volumes; what it wasn't told to flush goes with its power."""
        file, number = self.place / f"{name}.img", int(name[1:])
        with file.open("wb") as made:
            made.truncate(SIZE)
        inside = [*prompt.words(number), *self.network.words]
        return Disk(file, inside, f"{HOST}:{PORTS + number}")

    def power(self, name: str) -> None:
        """A machine gets power, where it hasn't."""
        with self.lock:
            if not self.machines[name].process:
                disk = self.disks.get(name)
                told = disk.start().removeprefix("nbd:") if disk else ""
                self.machines[name].start("systemd", told)

    def cut(self, name: str) -> None:
        """A machine loses its power, where it has some, and its disk what it doesn't keep."""
        with self.lock:
            if self.machines[name].process:
                self.machines[name].cut()
                if name in self.disks:
                    fate, seed = self.chance.choice(FATES), self.chance.randrange(2**32)
                    self.unflushed += self.disks[name].cut(fate, seed)

    def has_power(self, name: str) -> bool:
        """Whether a machine has power."""
        with self.lock:
            return self.machines[name].process is not None

    def sh(self, name: str, lines: str, seconds: float = 600) -> str:
        """What lines of bash print on a machine; their status has to be 0."""
        return self.machines[name].sh(lines, seconds)

    def cable(self, card: str, name: str, is_in: bool) -> None:
        """A machine's cable is pulled, or put back."""
        self.network.cable(card, int(name[1:]), is_in)

    def connect(self, door: tuple[int, str]) -> http.client.HTTPConnection:
        """A connection to a door at the office's address."""
        port, who = door
        context = ssl.create_default_context(cafile=self.place / "clients.pem")
        context.load_cert_chain(self.place / f"{who}.crt", self.place / f"{who}.key")
        return Inside(self.network, ADDRESS, port, SECONDS, NAME, context)

    def end(self) -> None:
        """Takes all away."""
        self.board.end()
        for name in self.machines:
            self.machines[name].cut()
        for disk in self.disks.values():
            disk.end()
        self.network.end()
