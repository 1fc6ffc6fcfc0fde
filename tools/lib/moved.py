"""A process whose clock is moved, and whose writes and syncs fail, by the numbers of moving.c."""

import contextlib
import mmap
import os
import pathlib
import socket
import struct
import subprocess
import time
from collections.abc import Sequence
from typing import Any

import growths
import ports

SOURCE = pathlib.Path(__file__).resolve().parent / "moving.c"
# A peer is let go of that is silent for 30 seconds, or for 300 in all.
QUIET, AGE = 10, 100
SECONDS = 300


def library(place: pathlib.Path) -> pathlib.Path:
    """The library that moves the clock, built in a folder by gcc."""
    built = place / "moving.so"
    subprocess.run(["gcc", "-O2", "-shared", "-fPIC", "-o", built, SOURCE], check=True)
    return built


class Numbers:
    """The five numbers of moving.c."""

    NAMES = ("seconds", "writes", "syncs", "lasts", "failed")

    def __init__(self, path: pathlib.Path, built: pathlib.Path) -> None:
        path.write_bytes(struct.pack("5q", 0, -1, -1, 0, 0))
        self.named = {"LD_PRELOAD": str(built), "MOVING": str(path)}
        with open(path, "r+b") as file:
            self.shared = mmap.mmap(file.fileno(), 0)

    def __getitem__(self, name: str) -> int:
        return int(struct.unpack_from("q", self.shared, 8 * self.NAMES.index(name))[0])

    def __setitem__(self, name: str, value: int) -> None:
        struct.pack_into("q", self.shared, 8 * self.NAMES.index(name), value)

    def heal(self) -> None:
        """No call fails any more."""
        for name, value in (("writes", -1), ("syncs", -1), ("lasts", 0), ("failed", 0)):
            self[name] = value


class Serving:
    """A process that serves so many connections of a folder's database, one after another."""

    def __init__(
        self,
        program: str,
        folder: pathlib.Path,
        connections: int,
        words: Sequence[str] = (),
        **named: str,
    ) -> None:
        self.left, self.heard, self.begun = connections, 0.0, 0.0
        self.peer: socket.socket | None = None
        self.read: Any = None
        self.port = ports.free_ports()
        words = ["serve", "db", "--port", str(self.port), "--connections", str(connections), *words]
        self.process = subprocess.Popen(
            [program, *words],
            cwd=folder,
            env={**os.environ, **named},
            stdout=subprocess.PIPE,
            stderr=subprocess.PIPE,
        )
        assert self.process.stdout
        self.line = self.process.stdout.readline()
        if not self.line:
            raise OSError(f"`serve` doesn't listen: {self.end()}")

    def ask(self, request: bytes) -> bytes:
        """The answer's bytes."""
        if not self.peer:
            self.left, self.begun = self.left - 1, time.monotonic()
            self.peer = socket.create_connection(("127.0.0.1", self.port), timeout=SECONDS)
            self.read = self.peer.makefile("rb")
        self.peer.sendall(request)
        answer: bytes = growths.answer_in(self.read)
        self.heard = time.monotonic()
        return answer

    def is_stale(self) -> bool:
        """Whether the connection may be near its end, as on a machine that is slow."""
        now = time.monotonic()
        return self.peer is not None and (now - self.heard > QUIET or now - self.begun > AGE)

    def hang_up(self) -> None:
        """Ends the connection, if there is one."""
        if self.peer:
            self.read.close()
            self.peer.close()
            self.peer = None

    def end(self) -> tuple[int, bytes, bytes]:
        """How it ends once its other connections are made and ended."""
        self.hang_up()
        for _ in range(self.left):
            with contextlib.suppress(OSError):
                socket.create_connection(("127.0.0.1", self.port), timeout=SECONDS).close()
        out, err = self.process.communicate(timeout=SECONDS)
        return self.process.returncode, self.line + out, err

    def kill(self) -> None:
        """Ends it at once."""
        self.hang_up()
        self.process.kill()
        self.process.communicate()
