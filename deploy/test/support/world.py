"""An office of real parts in a folder: shards of the program, HAProxy, certificates by openssl.

A test module's fixture makes a `World`; everything in it is on the loopback address and in the
folder, and goes with it."""
from __future__ import annotations

import contextlib
import csv
import functools
import io
import json
import os
import pathlib
import re
import signal
import socket
import subprocess
from collections.abc import Iterator
from typing import Any

from support import ports
from support.waiting import until

DEPLOY = pathlib.Path(__file__).resolve().parents[2]
TOP = DEPLOY.parent
OFFICE = DEPLOY / "bin/office"
BOOK = TOP / "examples/book.toml"
SHARDS = 4
VOUCHERS = "code,amount,days,scope\n123456789012,5000000,30,\n123456789013,5000000,30,\n"
QUIET: dict[str, Any] = {"stdin": subprocess.DEVNULL, "stdout": subprocess.DEVNULL}


@functools.cache
def program() -> str:
    """The path of the program."""
    if os.environ.get("OCS"):
        return str(pathlib.Path(os.environ["OCS"]).resolve())
    told = subprocess.run([TOP / "tools/program"], stdout=subprocess.PIPE, check=True, text=True)
    return str(TOP / told.stdout.strip())


def ran(*words: object, **more: Any) -> subprocess.CompletedProcess[str]:
    """A process with these words, whatever its status."""
    asked = list(map(str, words))
    return subprocess.run(asked, capture_output=True, text=True, check=False, **more)


def done(*words: object) -> str:
    """What a process with these words prints; its status has to be 0."""
    ended = ran(*words)
    assert ended.returncode == 0, (words, ended.stdout, ended.stderr)
    return ended.stdout


class World:
    """Shards and HAProxy with the doors of a file; `file` is its text with {place} and ports."""

    def __init__(self, place: pathlib.Path, text: str, doors: dict[str, int]) -> None:
        self.place, self.doors = place, doors
        # The moment at which the shards stand; None: the machine's clock.
        self.moment: int | None = None
        self.first = ports.free(SHARDS + 1)
        self.shards: dict[int, subprocess.Popen[bytes]] = {}
        self.haproxy: subprocess.Popen[bytes] | None = None
        self.file, self.configuration = place / "office.toml", place / "haproxy.cfg"
        self.log = place / "log"
        self.text = text
        self.write(text)

    def write(self, text: str) -> None:
        """Writes the office's file."""
        told = {"{place}": self.place, "{first}": self.first, "{program}": program()}
        for name, value in told.items():
            text = text.replace(name, str(value))
        self.file.write_text(text)

    def office(self, *words: object, **more: Any) -> subprocess.CompletedProcess[str]:
        """The command over this office, whatever its status."""
        return ran(OFFICE, "--file", self.file, *words, **more)

    def command(self, *words: object) -> str:
        """What the command prints; its status has to be 0."""
        return done(OFFICE, "--file", self.file, *words)

    def database(self, at: int) -> pathlib.Path:
        """The file of a shard."""
        return self.place / f"{at:02}.db"

    def make(self, count: int = SHARDS) -> None:
        """Makes and starts the shards; the last one has vouchers."""
        (self.place / "vouchers.csv").write_text(VOUCHERS)
        for at in range(1, count + 1):
            done(program(), "init", self.database(at), BOOK)
        done(program(), "import", self.database(count), self.place / "vouchers.csv")
        for at in range(1, count + 1):
            self.start(at)

    def start(self, at: int) -> None:
        """Starts a shard."""
        port = self.first + at
        words = [program(), "serve", self.database(at), "--port", port, "--connections", 1000000]
        words += [] if self.moment is None else ["--at", self.moment]
        errors = (self.place / "errors").open("ab")
        self.shards[at] = subprocess.Popen(list(map(str, words)), stderr=errors, **QUIET)
        errors.close()
        until(lambda: ports.listens(port) or self.shards[at].poll() is not None, f"shard {at}")
        assert self.shards[at].poll() is None, (self.place / "errors").read_text()

    def kill(self, at: int) -> None:
        """Kills a shard."""
        self.shards[at].kill()
        self.shards[at].wait()

    def still(self, at: int) -> contextlib.AbstractContextManager[None]:
        """A shard stands still meanwhile."""
        return stands_still(self.shards[at])

    def balance(self) -> None:
        """Starts HAProxy anew with what `office doors` makes of the file."""
        self.stop_balancing()
        self.configuration.write_text(self.command("doors"))
        with self.log.open("ab") as log:
            words = ["haproxy", "-W", "-db", "-f", str(self.configuration)]
            self.haproxy = subprocess.Popen(
                words, stdin=subprocess.DEVNULL, stdout=log, stderr=subprocess.STDOUT
            )
        until(self.is_balanced, "HAProxy")

    def is_balanced(self) -> bool:
        """Whether HAProxy has opened its doors; fails where it has ended."""
        assert self.haproxy and self.haproxy.poll() is None, self.log.read_text()[-2000:]
        sockets = re.findall(r"^    bind unix@(\S+)", self.configuration.read_text(), re.M)
        is_there = all(pathlib.Path(each).is_socket() for each in sockets)
        return is_there and all(map(ports.listens, self.doors.values()))

    def reload(self) -> None:
        """Has HAProxy read what `office doors` makes of the file now, while it serves; waits until
        a new process has the doors."""
        assert self.haproxy
        before = self.process()
        self.configuration.write_text(self.command("doors"))
        self.haproxy.send_signal(signal.SIGUSR2)
        until(lambda: self.process() != before, "HAProxy's new process")

    def process(self) -> str:
        """The process of HAProxy that has the socket."""
        return next(line for line in self.admin("show info").splitlines() if line[:4] == "Pid:")

    def stop_balancing(self) -> None:
        """Ends HAProxy."""
        if self.haproxy:
            self.haproxy.terminate()
            self.haproxy.wait()
            self.haproxy = None

    def end(self) -> None:
        """Ends all processes."""
        self.stop_balancing()
        for shard in self.shards.values():
            shard.send_signal(signal.SIGCONT)
            shard.terminate()
            shard.wait()

    def lines(self) -> list[dict[str, Any]]:
        """The lines of answers so far."""
        text = self.log.read_text(encoding="utf-8", errors="replace")
        return [json.loads(line) for line in text.splitlines() if line.startswith("{")]

    def line(self, request: str) -> dict[str, Any]:
        """The line of the request with this id."""
        until(lambda: request in self.log.read_text(errors="replace"), f"the line of {request}")
        return next(line for line in self.lines() if line["id"] == request)

    def admin(self, command: str) -> str:
        """What HAProxy says at its socket."""
        with socket.socket(socket.AF_UNIX) as peer:
            peer.connect(str(self.place / "admin.sock"))
            peer.sendall(command.encode() + b"\n")
            return b"".join(iter(lambda: peer.recv(65536), b"")).decode()

    def waiting(self) -> int:
        """How many requests wait for their shard."""
        return sum(int(row["qcur"] or 0) for row in self.measures().values())

    def asked(self, at: int) -> int:
        """How many requests a shard has in its hands."""
        return int(self.measures()[at]["scur"])

    def measures(self) -> dict[int, dict[str, str]]:
        """What HAProxy says of each shard."""
        rows = csv.DictReader(io.StringIO(self.admin("show stat").lstrip("# ")))
        return {
            int(row["svname"]): row
            for row in rows
            if row["pxname"] == "shards" and row["svname"].isdigit()
        }


@contextlib.contextmanager
def stands_still(process: subprocess.Popen[bytes]) -> Iterator[None]:
    """A process stands still meanwhile."""
    process.send_signal(signal.SIGSTOP)
    try:
        yield
    finally:
        process.send_signal(signal.SIGCONT)
