"""Runs the program with its growths of memory counted and some of them refused, and gives the rows
that it leaves.

A growth is a call of the C library's malloc or of its kin. growths.c, which gcc compiles, is loaded
into the program and shares the count with this process, as it does which growths are refused."""
import collections
import contextlib
import itertools
import mmap
import os
import pathlib
import re
import shutil
import socket
import sqlite3
import struct
import subprocess
import tempfile
import threading
from typing import IO

import ports

TOP = pathlib.Path(__file__).resolve().parents[2]
IN_MEMORY = "/dev/shm" if os.access("/dev/shm", os.W_OK) else None
SECONDS = 300

Ended = collections.namedtuple("Ended", "status out err")


class Growths:
    """The growths of a run in a folder; those from the first to the last of REFUSED are refused."""

    def __init__(self, work, refused):
        self.path = work / "growths"
        self.path.write_bytes(struct.pack("3q", 0, *refused))
        with open(self.path, "r+b") as file:
            self.shared = mmap.mmap(file.fileno(), 0)

    def count(self):
        """How many there were."""
        return struct.unpack_from("q", self.shared)[0]

    def allow(self):
        """Refuses no more."""
        struct.pack_into("2q", self.shared, 8, 0, 0)


class Program:
    """The program, and what is loaded into it."""

    def __init__(self, path, place):
        self.path, self.library = path, place / "growths.so"
        options = ["-O2", "-fno-builtin", "-shared", "-fPIC", "-o", self.library]
        subprocess.run(["gcc", *options, TOP / "tools/lib/growths.c"], check=True)

    def start(self, work, words, refused=(0, 0)):
        """A run in a folder, its standard input the file `lines`, and its growths."""
        growths = Growths(work, refused)
        named = {**os.environ, "LD_PRELOAD": str(self.library), "REFUSALS": str(growths.path)}
        with open(work / "lines", "rb") as lines:
            pipes = {"stdin": lines, "stdout": subprocess.PIPE, "stderr": subprocess.PIPE}
            return subprocess.Popen([self.path, *words], cwd=work, env=named, **pipes), growths

    def run(self, work, words, refused=(0, 0)):
        """How a run ends, and how many growths it had."""
        running, growths = self.start(work, words, refused)
        return ending(running), growths.count()


def ending(running, told=b""):
    """How a run ends that printed this before; one that doesn't end is killed."""
    try:
        out, err = running.communicate(timeout=SECONDS)
    except subprocess.TimeoutExpired:
        running.kill()
        out, err = running.communicate()
    return Ended(running.returncode, told + out, err)


class Server:
    """The program as it serves two connections of a folder's database."""

    def __init__(self, program, work, options, refused=(0, 0)):
        self.port = ports.free_ports()
        words = ["serve", "db", "--port", str(self.port), "--connections", "2", *options]
        self.running, self.growths = program.start(work, words, refused)
        self.stop = threading.Timer(SECONDS, self.running.kill)
        self.stop.start()
        self.line = self.running.stdout.readline()

    def sent(self, requests, due=()):
        """What each request is answered on a connection, the empty text where it ends; up to the
        first that isn't answered as is due."""
        answers, place = [], ("127.0.0.1", self.port)
        with contextlib.suppress(OSError), socket.create_connection(place, timeout=SECONDS) as peer:
            with peer.makefile("rb") as read:
                for request, wanted in itertools.zip_longest(requests, due):
                    answers.append(b"")
                    peer.sendall(request)
                    answers[-1] = answer_in(read)
                    if wanted not in (None, answers[-1]):
                        break
                peer.shutdown(socket.SHUT_WR)
                answers += [more for more in [read.read()] if more]
        return answers

    def ended(self):
        """How it ends, without the line that says its port."""
        listening = f"listening 127.0.0.1:{self.port}\n".encode()
        ended = ending(self.running, self.line)
        self.stop.cancel()
        return ended._replace(out=ended.out.removeprefix(listening))


def answer_in(read: IO[bytes]) -> bytes:
    """The next answer on a connection, as far as it comes."""
    head = b""
    while not head.endswith(b"\r\n\r\n"):
        line = read.readline()
        if not line:
            return head
        head += line
    return head + read.read(int(re.search(rb"Content-Length: (\d+)", head)[1]))


@contextlib.contextmanager
def copied(base, names=None):
    """A folder with copies of files of another, of all if none are named."""
    with tempfile.TemporaryDirectory(dir=IN_MEMORY) as place:
        work = pathlib.Path(place)
        for path in base.iterdir():
            if not names or path.name in names:
                shutil.copyfile(path, work / path.name)
        yield work


def rows_in(work):
    """The rows of each table of a folder's database, and what SQLite's checks say of it; of a copy,
    so that the files stay as they are."""
    with copied(work, ("db", "db-wal")) as place, contextlib.closing(sqlite3.connect(place / "db")) as opened:
        tables = opened.execute("SELECT name FROM sqlite_master WHERE type = 'table'").fetchall()
        asked = [(name, f"SELECT * FROM {name}") for name, in tables]
        asked += [(name, f"PRAGMA {name}") for name in ("integrity_check", "foreign_key_check")]
        return {name: sorted(opened.execute(text), key=repr) for name, text in asked}
