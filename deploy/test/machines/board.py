"""The management boards of a site's machines: who asks for a machine's power is answered, and takes
it away or gives it back. `fence_ipmilan` asks by the guests' `ipmitool`, which comes here."""
from __future__ import annotations

import contextlib
import socket
import threading
import time
from typing import Protocol

from support.machine import Network

PORT = 15700


class Powers(Protocol):
    """What has the machines."""

    def power(self, name: str) -> None:
        """A machine gets power."""

    def cut(self, name: str) -> None:
        """A machine loses its power."""

    def has_power(self, name: str) -> bool:
        """Whether a machine has power."""


class Board:
    """Listens at an address of the tests' network, which each machine has a cable to."""

    def __init__(self, network: Network, address: str, powers: Powers) -> None:
        self.powers = powers
        # What was asked when, of which machine.
        self.asked: list[tuple[float, str, str]] = []
        # While it isn't there, whoever asks waits.
        self.is_there = threading.Event()
        self.is_there.set()
        with network.inside():
            self.door = socket.create_server((address, PORT))
        threading.Thread(target=self.serve, daemon=True).start()

    def serve(self) -> None:
        """Answers one after another: a line `ADDRESS WORD`."""
        while True:
            try:
                peer, _ = self.door.accept()
            except OSError:
                return
            with peer:
                asked = peer.makefile().readline().split()
                self.is_there.wait()
                if len(asked) == 2:
                    told = self.answer(f"m{asked[0][-1]}", asked[1])
                    with contextlib.suppress(OSError):
                        peer.sendall(told.encode() + b"\n")

    def answer(self, name: str, word: str) -> str:
        """Does what a board is asked; whether the machine has power now."""
        self.asked.append((time.monotonic(), name, word))
        if word == "off":
            self.powers.cut(name)
        if word == "on":
            self.powers.power(name)
        return "on" if self.powers.has_power(name) else "off"

    def off_since(self, moment: float) -> set[str]:
        """The machines whose power was to be taken away, or known to be, since a moment."""
        return {name for when, name, word in self.asked if when > moment and word == "off"}

    def end(self) -> None:
        """Answers nobody more."""
        self.door.close()
