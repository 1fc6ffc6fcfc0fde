"""HAProxy of this machine, between gateways and a shard: each request takes its turn at the one
connection that a shard has."""
from __future__ import annotations

import http.client
import pathlib
import subprocess
from collections.abc import Callable, Sequence

from support import ports
from support.waiting import until

SECONDS = 900
TEXT = """\
defaults
    mode http
    timeout client 600s
    timeout connect 60s
    timeout queue 600s
    timeout server 600s
listen turns
    bind {here}
    http-reuse always
    server shard {shard} maxconn 1 pool-max-conn 1
"""
# Makes a connection to an address and a port, with the seconds that it waits.
Connect = Callable[[str, int, float], http.client.HTTPConnection]


def here(address: str, port: int, seconds: float) -> http.client.HTTPConnection:
    """A connection from this process."""
    return http.client.HTTPConnection(address, port, timeout=seconds)


class Turns:
    """The process, which is started anew after each fault; `inside` are the words before its own
    where it isn't to be where this process is."""

    def __init__(
        self,
        place: pathlib.Path,
        address: str = "127.0.0.1",
        inside: Sequence[str] = (),
        connect: Connect = here,
    ) -> None:
        self.file, self.address, self.port = place / "turns.cfg", address, 0
        self.inside, self.make = inside, connect
        self.process: subprocess.Popen[bytes] | None = None

    def start(self, shard: str) -> None:
        """Hands requests to the shard at this address and port, from a port of its own each time."""
        self.port = ports.free()
        self.file.write_text(TEXT.format(here=f"{self.address}:{self.port}", shard=shard))
        words = [*self.inside, "haproxy", "-db", "-f", str(self.file)]
        self.process = subprocess.Popen(words, stderr=subprocess.DEVNULL)
        until(self.listens, "HAProxy before a shard", 300)

    def listens(self) -> bool:
        """Whether it takes connections."""
        peer = self.connect()
        try:
            peer.connect()
        except ConnectionRefusedError:
            return False
        peer.close()
        return True

    def connect(self) -> http.client.HTTPConnection:
        """A gateway's connection."""
        return self.make(self.address, self.port, SECONDS)

    def end(self) -> None:
        """Ends it, and with it each connection and each request that waits."""
        if self.process:
            self.process.kill()
            self.process.wait()
        self.process = None
