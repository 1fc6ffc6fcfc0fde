"""The bridge as a process, and what it asks: an office with a clock of its own, or a stub."""
from __future__ import annotations

import json
import os
import pathlib
import re
import signal
import socket
import socketserver
import subprocess
import threading
import urllib.request
from collections.abc import Callable
from http.server import BaseHTTPRequestHandler
from typing import Any

from diameter.wire import PATIENCE
from support import ports, world
from support.ahead import ahead
from support.callers import Caller
from support.waiting import until

SOURCE = world.DEPLOY / "diameter"
BOOK_OF_CALLS = pathlib.Path(__file__).resolve().parent / "calls/book.toml"
UNITS = "#{10 => time, 20 => octets, 30 => events}"
# The code of 5,000,000 micro-units that each shard has.
CODES = {1: "123456789012", 2: "123456789013"}
# Monday, 5 January 2026, 10:00 UTC: the peak of examples/book.toml.
MONDAY_10 = 1767607200
FILE = """
[office]
shards = 2
first-port = {first}
databases = "{place}"
moved = "{place}/moved"
owner = ""
[haproxy]
user = ""
sockets = "{place}"
[waits]
queue = 1
[[door]]
name = "gateways"
role = "gateway"
at = "127.0.0.1:{gateways}"
refunds = true
[[door]]
name = "refunds-not"
role = "gateway"
at = "127.0.0.1:{strict}"
[[door]]
name = "scripts"
role = "script"
at = "{place}/office.sock"
"""


class Office(world.World):
    """Two shards behind the doors. `moment` is where their clock stands; without one it goes on, so
    many seconds `ahead` of the machine's. `later` is a book and when it begins."""

    def __init__(
        self, place: pathlib.Path, moment: int | None = None, book: pathlib.Path = world.BOOK
    ) -> None:
        self.book = book
        self.later: tuple[pathlib.Path, int] | None = None
        first = ports.free(2)
        doors = {"gateways": first, "strict": first + 1}
        text = FILE
        for name, port in doors.items():
            text = text.replace("{" + name + "}", str(port))
        place.mkdir(parents=True, exist_ok=True)
        super().__init__(place, text, doors)
        self.moment, self.ahead = moment, 0
        self.script = Caller(self, place / "office.sock")

    def up(self) -> Office:
        """Makes the shards and starts all."""
        for at in (1, 2):
            world.done(world.program(), "init", self.database(at), self.book)
            code = self.place / "code.csv"
            code.write_text(f"code,amount,days,scope\n{CODES[at]},5000000,30,\n")
            world.done(*self.shard_words("import", at), code, *self.at())
            if self.later:
                world.done(*self.shard_words("book", at), self.later[0], "--from", self.later[1])
            self.start(at)
        self.balance()
        return self

    def start(self, at: int) -> None:
        """Starts a shard at the office's moment."""
        port = self.first + at
        words = [world.program(), "serve", self.database(at), "--port", port]
        words += ["--connections", 1000000]
        words += self.at()
        shown = os.environ | ahead(self.ahead) if self.ahead else None
        with (self.place / "errors").open("ab") as errors:
            self.shards[at] = subprocess.Popen(
                list(map(str, words)), stderr=errors, env=shown, **world.QUIET
            )
        until(lambda: ports.listens(port), f"shard {at}", PATIENCE)

    def at(self) -> list[object]:
        """The option of the moment, where their clock stands."""
        return [] if self.moment is None else ["--at", self.moment]

    def moved(self, moment: int, later: pathlib.Path | None = None, begins: int = 0) -> None:
        """Starts the shards again at a moment, perhaps with a later book."""
        for at in (1, 2):
            self.kill(at)
            if later:
                world.done(*self.shard_words("book", at), later, "--from", begins)
        self.moment = moment
        for at in (1, 2):
            self.start(at)

    def bar(self, account: str) -> None:
        """Bars an account, while its shard is away."""
        shard = self.shard(account)
        self.kill(shard)
        world.done(*self.shard_words("bar", shard), account, *self.at())
        self.start(shard)

    def shard_words(self, word: str, at: int) -> list[str]:
        """A word of the program over the database of a shard."""
        return [world.program(), word, str(self.database(at))]

    def account(self, number: str, amount: int = 0) -> str:
        """Opens an account with so much money, again until it is there."""
        until(lambda: self.script.ask("PUT", f"/accounts/{number}").status == 200, number)
        if amount:
            body = {"Amount": amount, "Reference": "first"}
            credit = f"/accounts/{number}/credits"
            until(lambda: self.script.ask("POST", credit, body).status == 200, credit)
        return number

    def shard(self, number: str) -> int:
        """The shard of an account."""
        return int(self.script.ask("GET", f"/accounts/{number}").shard)

    def sums(self, number: str) -> tuple[int, int, int, int]:
        """What was credited to an account, is available, reserved, charged."""
        told: list[Any] = []

        def is_told() -> bool:
            told[:] = [self.script.ask("GET", f"/accounts/{number}")]
            return bool(told[0].status == 200)

        until(is_told, f"the balance of {number}")
        rows = told[0].body["Buckets"]
        names = ("Credited", "Available", "Reserved", "Charged")
        credited, available, reserved, charged = (sum(row[name] for row in rows) for name in names)
        return credited, available, reserved, charged


class Bridge:
    """The process `ocs-diameter`. Members of the configuration are texts of Erlang terms, in which
    PORT is its port. It waits for the office as long as it may, so that a slow machine's answers are
    those of a fast one; a test of its limits sets them."""

    def __init__(self, home: pathlib.Path, place: pathlib.Path, asks: int, **members: str) -> None:
        self.home, self.place = home, place
        self.port, self.watch = ports.free(), ports.free()
        place.mkdir(parents=True, exist_ok=True)
        self.file = place / "diameter.config"
        self.out, self.errors = place / "out", place / "errors"
        self.members = {
            "origin_host": '"ocs.example"',
            "origin_realm": '"example"',
            "listen": "[#{ip => {127,0,0,1}, port => %d}]" % self.port,
            "office": "{{127,0,0,1}, %d}" % asks,
            "watch": "{{127,0,0,1}, %d}" % self.watch,
            "units": UNITS,
            "answer_time": "60000",
            "queue_time": "1000",
        } | members
        self.process: subprocess.Popen[bytes] | None = None
        self.write()

    def write(self, **members: str) -> None:
        """Writes its configuration, with these members changed."""
        self.members |= members
        told = {name: text.replace("PORT", str(self.port)) for name, text in self.members.items()}
        rows = ",\n  ".join(f"{name} => {value}" for name, value in told.items())
        self.file.write_text("#{" + rows + "}.\n")

    def start(self, *before: object) -> Bridge:
        """Starts it, behind the words of another program; it listens afterwards."""
        words = [*map(str, before), str(self.home / "ocs-diameter"), str(self.file)]
        with self.out.open("ab") as out, self.errors.open("ab") as errors:
            self.process = subprocess.Popen(
                words, stdin=subprocess.DEVNULL, stdout=out, stderr=errors, start_new_session=True
            )
        process = self.process
        until(lambda: ports.listens(self.port) or process.poll() is not None, "the bridge", 180)
        assert process.poll() is None, self.errors.read_text()
        return self

    def stop(self, number: signal.Signals = signal.SIGTERM) -> int:
        """Ends it by a signal; its status."""
        if self.process is None:
            return 0
        process, self.process = self.process, None
        process.send_signal(number)
        try:
            return process.wait(120)
        finally:
            process.kill()

    def reload(self) -> None:
        """Has it read its configuration again."""
        assert self.process
        before = self.errors.read_text().count("read again")
        self.process.send_signal(signal.SIGHUP)
        until(lambda: self.errors.read_text().count("read again") > before, "the reload")

    def get(self, path: str) -> str:
        """What its own port answers."""
        with urllib.request.urlopen(f"http://127.0.0.1:{self.watch}{path}", timeout=60) as answer:
            return str(answer.read().decode())

    def measure(self, name: str) -> float:
        """A value of /metrics; 0 where it has none."""
        for line in self.get("/metrics").splitlines():
            if line.startswith(f"ocs_diameter_{name} "):
                return float(line.rpartition(" ")[2])
        return 0.0

    def credited(self, account: str) -> int:
        """Tells it of a top-up; the sessions that it tells."""
        request = urllib.request.Request(
            f"http://127.0.0.1:{self.watch}/credited", json.dumps({"Account": account}).encode()
        )
        with urllib.request.urlopen(request, timeout=60) as answer:
            return int(json.loads(answer.read())["Sessions"])

    def lines(self) -> list[dict[str, Any]]:
        """Its whole lines so far."""
        return [json.loads(line) for line in self.out.read_text().split("\n")[:-1]]

    def line(self, **members: str) -> dict[str, Any]:
        """The only line with these members, once it is written: an answer may be there before it."""
        found: list[dict[str, Any]] = []

        def is_written() -> bool:
            found[:] = [line for line in self.lines() if members.items() <= line.items()]
            return bool(found)

        until(is_written, f"the line with {members}")
        [one] = found
        return one

    def memory(self) -> int:
        """Its KiB, resident and swapped out."""
        assert self.process
        asked = ["ps", "--no-headers", "-o", "pid", "-g", str(self.process.pid)]
        told = subprocess.run(asked, capture_output=True, text=True, check=True).stdout
        return max(map(held, told.split()))


def held(process: str) -> int:
    """The KiB of a process, resident and swapped out; 0 where it has ended."""
    try:
        text = pathlib.Path(f"/proc/{process}/status").read_text()
    except OSError:
        return 0
    return sum(map(int, re.findall(r"^Vm(?:RSS|Swap):\s+(\d+) kB$", text, re.M)))


def built(place: pathlib.Path) -> pathlib.Path:
    """The bridge, built into a folder; OCS_DIAMETER names one that is built."""
    if os.environ.get("OCS_DIAMETER"):
        return pathlib.Path(os.environ["OCS_DIAMETER"])
    world.done(SOURCE / "build", place)
    return place


Plan = Callable[[dict[str, Any]], tuple[int, Any] | None]


class Stub:
    """A small HTTP server in the office's place: it keeps what it was asked, and answers by `plan`:
    a status and a content, or none to close the connection without an answer."""

    def __init__(self) -> None:
        self.port = ports.free()
        self.plan: Plan = good
        self.seen: list[dict[str, Any]] = []
        self.lock = threading.Lock()
        self.open: list[socket.socket] = []
        stub = self

        class Handler(BaseHTTPRequestHandler):
            """A connection."""

            protocol_version = "HTTP/1.1"
            wbufsize = -1

            def setup(self) -> None:
                super().setup()
                stub.open.append(self.connection)

            def do_POST(self) -> None:
                """Answers by the plan."""
                body = json.loads(self.rfile.read(int(self.headers["Content-Length"])))
                with stub.lock:
                    stub.seen.append(body)
                planned = stub.plan(body)
                if planned is None:
                    self.close_connection = True
                    return
                status, content = planned
                text = content if isinstance(content, bytes) else json.dumps(content).encode()
                self.send_response(status)
                self.send_header("Content-Type", "application/json")
                self.send_header("Content-Length", str(len(text)))
                self.end_headers()
                self.wfile.write(text)
                self.wfile.flush()

            def log_message(self, *_: object) -> None:
                pass

        class Server(socketserver.ThreadingMixIn, socketserver.TCPServer):
            """Threads that end with the test."""

            allow_reuse_address, daemon_threads, request_queue_size = True, True, 512

            def handle_error(self, *_: object) -> None:
                pass

        self.server = Server(("127.0.0.1", self.port), Handler)
        threading.Thread(target=self.server.serve_forever, daemon=True).start()

    def take(self) -> list[dict[str, Any]]:
        """What it was asked since the last time."""
        with self.lock:
            taken, self.seen = self.seen, []
        return taken

    def stop(self) -> None:
        """Ends it, with its connections."""
        self.server.shutdown()
        self.server.server_close()
        for each in self.open:
            try:
                each.shutdown(socket.SHUT_RDWR)
            except OSError:
                continue


def good(body: dict[str, Any]) -> tuple[int, Any]:
    """2001 for a request."""
    names = ("CC-Request-Number", "CC-Request-Type", "Session-Id")
    return 200, {"Result-Code": 2001} | {name: body[name] for name in names}
