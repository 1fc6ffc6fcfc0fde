"""A shard that is served, and a client that counts its answers, for tests of copies."""
from __future__ import annotations

import contextlib
import http.client
import json
import os
import pathlib
import sqlite3
import threading
from collections.abc import Iterator

import pytest
from support.waiting import until
from support.world import World

FILE = """
[office]
shards = 1
first-port = {first}
databases = "{place}"
program = "{program}"
owner = ""
moved = "{place}/moved"
clearing = "{place}/clearing"
[haproxy]
user = ""
sockets = "{place}"
file = "{place}/haproxy.cfg"
"""
ACCOUNT = "49151"
# A `cp` that keeps a list of its calls, takes its time and waits at a gate; a `systemctl` that
# knows a process and no unit.
TOOLS = {
    "cp": """\
#!/bin/sh
echo "$*" >> {place}/calls
while [ -e {place}/gate ]; do sleep 0.02; done
sleep "$(cat {place}/delay)"
exec /bin/cp "$@"
""",
    "systemctl": """\
#!/bin/sh
cat {place}/process
""",
}


class Tools:
    """The command's own `cp` and `systemctl`, in a folder."""

    def __init__(self, place: pathlib.Path) -> None:
        self.place, self.gate, self.calls = place, place / "gate", place / "calls"
        for name, text in TOOLS.items():
            (place / name).write_text(text.replace("{place}", str(place)))
            (place / name).chmod(0o755)
        self.put()

    def put(self, delay: float = 0, process: int = 0) -> None:
        """Opens the gate, forgets the calls; how long a copy takes, and which process a unit
        has."""
        self.gate.unlink(missing_ok=True)
        self.calls.write_text("")
        (self.place / "delay").write_text(str(delay))
        (self.place / "process").write_text(str(process))

    def copied(self) -> int:
        """How many files were copied."""
        return len(self.calls.read_text().splitlines())

    def environment(self) -> dict[str, str]:
        """What the command runs with."""
        return os.environ | {"PATH": f"{self.place}:{os.environ['PATH']}"}


class Asked:
    """One client that sends one debit after another, and counts those that were answered."""

    def __init__(self, world: World) -> None:
        self.world, self.answered, self.sent = world, 0, 0
        self.answers = list[str]()
        self.stop = threading.Event()
        self.thread = threading.Thread(target=self.run)
        self.fault = ""

    def run(self) -> None:
        """Sends until it is told to stop."""
        peer = http.client.HTTPConnection("127.0.0.1", self.world.first + 1, timeout=60)
        ask(peer, "PUT", f"/accounts/{ACCOUNT}", None)
        ask(
            peer, "POST", f"/accounts/{ACCOUNT}/credits", {"Amount": 10**12, "Reference": "money"}
        )
        while not self.stop.is_set():
            self.sent += 1
            told = ask(peer, "POST", "/ccr", debit(self.sent))
            if '"Result-Code":2001' not in told:
                self.fault = told
                return
            self.answers.append(told)
            self.answered += 1

    def header(self) -> bytes:
        """The header of the log, another one at each checkpoint."""
        with open(f"{self.world.database(1)}-wal", "rb") as log:
            return log.read(32)


def ask(peer: http.client.HTTPConnection, method: str, path: str, body: object) -> str:
    """The text of an answer."""
    text = json.dumps(body) if body else ""
    peer.request(method, path, text, {"Content-Type": "application/json"})
    return peer.getresponse().read().decode()


def debit(number: int) -> dict[str, object]:
    """A debit of one second, the first or a later one."""
    service = {"Rating-Group": 10, "Requested-Service-Unit": {"CC-Time": 1}}
    return {
        "Session-Id": f"d{number}",
        "CC-Request-Type": 4,
        "CC-Request-Number": 0,
        "Requested-Action": 0,
        "Subscription-Id": {"Subscription-Id-Type": 0, "Subscription-Id-Data": ACCOUNT},
        "Multiple-Services-Credit-Control": [service],
    }


def debits_of(copy: pathlib.Path) -> list[int]:
    """The numbers of the debits that a copy has, in their order; the copy has to be whole."""
    with contextlib.closing(sqlite3.connect(copy)) as store:
        assert store.execute("PRAGMA integrity_check").fetchone() == ("ok",)
        rows = store.execute("SELECT name FROM answers WHERE account = ? AND kind = 1", (ACCOUNT,))
        return sorted(int(name[1:]) for (name,) in rows)


@pytest.fixture(scope="package")
def world(tmp_path_factory: pytest.TempPathFactory) -> Iterator[World]:
    """A shard."""
    one = World(tmp_path_factory.mktemp("copies"), FILE, {})
    one.make(1)
    try:
        yield one
    finally:
        one.end()


@pytest.fixture(scope="package")
def asked(world: World) -> Iterator[Asked]:
    """The client, at work."""
    one = Asked(world)
    one.thread.start()
    until(lambda: one.answered > 10 or one.fault, "the first debits")
    yield one
    one.stop.set()
    one.thread.join()
    assert not one.fault, one.fault


@pytest.fixture
def tools(tmp_path: pathlib.Path) -> Tools:
    """The command's tools."""
    place = tmp_path / "tools"
    place.mkdir()
    return Tools(place)
