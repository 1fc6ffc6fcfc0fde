"""A disk whose cache is lost with its power: a server of NBD over a file, a process of its own.

A write is answered at once and kept in memory; a flush brings all that was written to the file. At
a cut, of what wasn't flushed all, nothing, or by chance of each write nothing, all or some of its
sectors gets to the file. A disk that keeps its word may do any of these."""
from __future__ import annotations

import os
import pathlib
import random
import socket
import struct
import subprocess
import sys
import threading
import time
from collections.abc import Sequence

SECTOR = 512
MAGIC, OPTIONS, REPLY = 0x4E42444D41474943, 0x49484156454F5054, 0x3E889045565A9
REQUEST, ANSWER = 0x25609513, 0x67446698
READ, WRITE, CLOSE, FLUSH = 0, 1, 2, 3
# EIO.
ERROR = 5
EXPORT_NAME, ABORT, INFO, GO = 1, 2, 6, 7
ACKNOWLEDGED, TOLD, UNSUPPORTED = 1, 3, 0x80000001
# Has flags; takes flushes.
FLAGS = 1 | 4
FATES = ("kept", "lost", "torn")


class Disk:
    """The process, started for each time that the disk has power. It listens at a path, or at an
    address and a port; `inside` are the words before its own where it isn't to be where this process
    is."""

    def __init__(
        self, file: pathlib.Path, inside: Sequence[str] = (), address: str | None = None
    ) -> None:
        self.file, self.inside = file, inside
        self.where = address or str(file.with_suffix(".nbd"))
        self.process: subprocess.Popen[str] | None = None

    def start(self) -> str:
        """Gives it power; the source that a machine plugs in."""
        words = [*self.inside, sys.executable, __file__, str(self.file), self.where]
        pipe = subprocess.PIPE
        self.process = subprocess.Popen(words, stdin=pipe, stdout=pipe, text=True)
        assert self.process.stdout
        self.process.stdout.readline()
        return f"nbd:{self.where}"

    def cut(self, fate: str, seed: int) -> int:
        """Its power is cut; how many writes weren't flushed."""
        assert self.process
        told, _ = self.process.communicate(f"cut {fate} {seed}\n", timeout=120)
        self.process = None
        return int(told)

    def lie(self) -> None:
        """From now on a flush is answered and isn't done."""
        self.tell("lie")

    def slow(self, seconds: float) -> None:
        """From now on each write and each flush takes so much longer."""
        self.tell(f"slow {seconds}")

    def fail(self) -> None:
        """From now on each request is answered with an error."""
        self.tell("fail")

    def tell(self, line: str) -> None:
        """Says something to the process."""
        assert self.process and self.process.stdin
        self.process.stdin.write(f"{line}\n")
        self.process.stdin.flush()

    def end(self) -> None:
        """Ends the process."""
        if self.process:
            self.process.kill()
            self.process.wait()
            self.process = None


class Cache:
    """A file, and what was written since the last flush."""

    def __init__(self, file: str) -> None:
        self.file = os.open(file, os.O_RDWR)
        self.size = os.fstat(self.file).st_size
        self.sectors: dict[int, bytes] = {}
        self.waiting: list[tuple[int, bytes]] = []
        self.lock, self.lies = threading.Lock(), False
        self.delay, self.is_broken = 0.0, False

    def read(self, at: int, length: int) -> bytes:
        """What was written last."""
        first, last = at // SECTOR, -(-(at + length) // SECTOR)
        got = bytearray(os.pread(self.file, (last - first) * SECTOR, first * SECTOR))
        for sector in range(first, last) if self.sectors else ():
            if sector in self.sectors:
                place = (sector - first) * SECTOR
                got[place : place + SECTOR] = self.sectors[sector]
        return bytes(got[at - first * SECTOR :][:length])

    def write(self, at: int, data: bytes) -> None:
        """Keeps whole sectors in memory."""
        assert at % SECTOR == 0 and len(data) % SECTOR == 0
        self.waiting.append((at, data))
        for place in range(0, len(data), SECTOR):
            self.sectors[(at + place) // SECTOR] = data[place : place + SECTOR]

    def flush(self) -> None:
        """Brings all that waits to the file."""
        if self.lies:
            return
        for at, data in self.waiting:
            os.pwrite(self.file, data, at)
        self.waiting.clear()
        self.sectors.clear()

    def cut(self, fate: str, seed: int) -> int:
        """What the file has once the power is gone; how many writes weren't flushed."""
        chance = random.Random(seed)
        for at, data in self.waiting:
            mine = chance.choice(FATES) if fate == "torn" else fate
            for place in range(0, len(data) if mine != "lost" else 0, SECTOR):
                if mine == "kept" or chance.random() < 0.5:
                    os.pwrite(self.file, data[place : place + SECTOR], at + place)
        return len(self.waiting)


def obey(cache: Cache) -> None:
    """Does what the lines of standard input say; their end is the end of the process."""
    for line in sys.stdin:
        word, *more = line.split()
        if word == "lie":
            cache.lies = True
        if word == "slow":
            cache.delay = float(more[0])
        if word == "fail":
            cache.is_broken = True
        if word == "cut":
            with cache.lock:
                print(cache.cut(more[0], int(more[1])), flush=True)
                os._exit(0)
    os._exit(0)


def exactly(peer: socket.socket, count: int) -> bytes:
    """So many bytes; the end of the connection before them is an error."""
    got = peer.recv(count, socket.MSG_WAITALL) if count else b""
    if len(got) < count:
        raise ConnectionError
    return got


def greet(peer: socket.socket, cache: Cache) -> None:
    """The handshake, until the client has chosen the disk."""
    peer.sendall(struct.pack(">QQH", MAGIC, OPTIONS, 3))
    exactly(peer, 4)
    while True:
        _, option, length = struct.unpack(">QII", exactly(peer, 16))
        exactly(peer, length)
        if option == EXPORT_NAME:
            peer.sendall(struct.pack(">QH", cache.size, FLAGS))
            return
        if option in (INFO, GO):
            told = struct.pack(">HQH", 0, cache.size, FLAGS)
            peer.sendall(struct.pack(">QIII", REPLY, option, TOLD, len(told)) + told)
            peer.sendall(struct.pack(">QIII", REPLY, option, ACKNOWLEDGED, 0))
        else:
            peer.sendall(struct.pack(">QIII", REPLY, option, UNSUPPORTED, 0))
        if option == GO:
            return
        if option == ABORT:
            raise ConnectionError


def serve(peer: socket.socket, cache: Cache) -> None:
    """Answers a client's requests until it goes."""
    while True:
        magic, _, kind, cookie, at, length = struct.unpack(">IHHQQI", exactly(peer, 28))
        written = exactly(peer, length) if kind == WRITE else b""
        if magic != REQUEST or kind == CLOSE:
            return
        data = b""
        if cache.is_broken:
            peer.sendall(struct.pack(">IIQ", ANSWER, ERROR, cookie))
            continue
        if kind in (WRITE, FLUSH):
            time.sleep(cache.delay)
        with cache.lock:
            if kind == READ:
                data = cache.read(at, length)
            elif kind == WRITE:
                cache.write(at, written)
            elif kind == FLUSH:
                cache.flush()
        peer.sendall(struct.pack(">IIQ", ANSWER, 0, cookie) + data)


def listener(where: str) -> socket.socket:
    """Listens at a path, or at an address and a port."""
    address, _, port = where.rpartition(":")
    if address:
        return socket.create_server((address, int(port)))
    pathlib.Path(where).unlink(missing_ok=True)
    door = socket.socket(socket.AF_UNIX)
    door.bind(where)
    door.listen()
    return door


def main() -> None:
    """Serves one client after another: FILE PATH, or FILE ADDRESS:PORT."""
    cache = Cache(sys.argv[1])
    door = listener(sys.argv[2])
    threading.Thread(target=obey, args=(cache,), daemon=True).start()
    print("ready", flush=True)
    while True:
        peer, _ = door.accept()
        with peer:
            if peer.family == socket.AF_INET:
                peer.setsockopt(socket.IPPROTO_TCP, socket.TCP_NODELAY, 1)
            try:
                greet(peer, cache)
                serve(peer, cache)
            except ConnectionError:
                continue


if __name__ == "__main__":
    main()
