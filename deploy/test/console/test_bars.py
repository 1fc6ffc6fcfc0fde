"""Bars whose answer is lost, and sessions that a shard's death meets: a small server answers in the agent's
place, and bars by the program's own word."""
from __future__ import annotations

import http.server
import itertools
import json
import os
import socketserver
import threading
from collections.abc import Iterator
from typing import Any

import pytest
from support.callers import debit, opened
from support.world import World, done, program

from console.behind import behind, rows_of
from console.office import ACCOUNT, MOMENT, balance, home, script
from console.person import Person
from console.test_killed import killed_within


HELD = [
    {"bucket": 5, "amount": 3, "is_blocks": True},
    {"bucket": 2, "amount": 1_000_000, "is_blocks": False},
]
GROUPS = [
    {"rating_group": 10, "used": 1234, "reserved": True, "held": HELD},
    {"rating_group": 30, "used": 0, "reserved": False, "held": []},
]
NUMBERS = itertools.count(55501)
NAME = "<img src=x onerror=document.title='got_in'>"
SESSIONS = [
    {"session": NAME, "last_number": 4, "touched": MOMENT, "ends": MOMENT + 3600, "groups": GROUPS}
]


class Agent(http.server.BaseHTTPRequestHandler):
    """Answers as the office's agent does."""

    world: World
    dies = False
    older = 0
    sessions = SESSIONS

    def do_GET(self) -> None:
        told = {"sessions": Agent.sessions, "charges": [], "lines": [], "lines_before": Agent.older}
        self.answer(told | {"as_of": MOMENT, "lines_since": MOMENT - 86400})

    def do_POST(self) -> None:
        word, account = self.path.split("/")[-2:]
        at = home(self.world, account)
        self.world.kill(at)
        done(program(), word, self.world.database(at), account, "--at", MOMENT)
        self.world.start(at)
        if Agent.dies:
            return
        self.answer({"account": account, "Result-Code": 2001, "changed": True, "waited": 1.25})

    def answer(self, body: dict[str, Any]) -> None:
        """Writes an answer."""
        data = json.dumps(body).encode()
        self.send_response(200)
        self.send_header("Content-Type", "application/json")
        self.send_header("Content-Length", str(len(data)))
        self.end_headers()
        self.wfile.write(data)

    def address_string(self) -> str:
        """A socket of the file system has no address."""
        return "doors"

    def log_message(self, *_: object) -> None:
        """Prints nothing."""


class Server(socketserver.ThreadingMixIn, socketserver.UnixStreamServer):
    """The server, at the agent's socket."""

    daemon_threads = True


@pytest.fixture(scope="module", autouse=True)
def agent(world: World) -> Iterator[None]:
    """A small server is in the agent's place."""
    Agent.world = world
    place = str(world.place / "agent.sock")
    with Server(place, Agent) as server:
        os.chmod(place, 0o666)
        threading.Thread(target=server.serve_forever, daemon=True).start()
        yield
        server.shutdown()
    os.unlink(place)


@pytest.fixture
def account(world: World) -> str:
    """A new account."""
    return opened(script(world), str(next(NUMBERS)), 1_000_000)


def test_a_bar_whose_answer_is_lost_is_asked_again(
    world: World, operator: Person, account: str
) -> None:
    behind(operator, account)
    operator.tab("bar")
    Agent.dies = True
    assert operator.send("bar").startswith("No answer.")
    Agent.dies = False
    assert operator.texts("#unanswered span") == [f"Bar for account {account}"]
    assert operator.again().startswith("Barred")
    assert balance(world, account)["Barred"] and not operator.is_seen("#waiting")


def test_open_sessions_and_what_they_hold(operator: Person) -> None:
    behind(operator, ACCOUNT)
    times = ["2026-01-29 14:03:00", "2026-01-29 15:03:00"]
    assert rows_of(operator, "[data-part='open sessions']") == [
        [NAME, *times, "10", "1,234", "allowance 5: 3 blocks, bucket 2: 1.00", "End"],
        [NAME, *times, "30", "0", "", ""],
    ]
    assert operator.value("document.querySelectorAll('main img').length") == 0
    assert operator.value("document.title") == "Office"


def test_how_many_lines_are_left_out(operator: Person) -> None:
    Agent.older = 1234
    try:
        behind(operator, ACCOUNT)
    finally:
        Agent.older = 0
    wanted = "The doors' log since 2026-01-28 14:03:00, 1,234 older ones left out"
    assert operator.texts("#agent-parts h3")[1] == wanted
    assert operator.text("#agent-moment") == "as of 2026-01-29 14:03:00"


@pytest.fixture
def session(world: World, operator: Person, account: str) -> Iterator[str]:
    """A session of the account is open, and the page shows it."""
    name = f"voice-{account}"
    initial = debit(account, name) | {"CC-Request-Type": 1}
    del initial["Requested-Action"]
    assert script(world).ask("POST", "/ccr", initial).body["Result-Code"] == 2001
    assert balance(world, account)["Buckets"][0]["Reserved"] > 0
    one = {"session": name, "last_number": 0, "touched": MOMENT, "ends": MOMENT + 9}
    Agent.sessions = [one | {"groups": GROUPS}]
    behind(operator, account)
    yield name
    operator.way, Agent.sessions = "pointer", SESSIONS


@pytest.mark.parametrize("when", ["before it came", "with it in its hands"])
def test_a_session_whose_shard_dies_is_ended_once(
    world: World, operator: Person, account: str, session: str, when: str
) -> None:
    before = operator.counted("done")
    with killed_within(world, home(world, account), when):
        operator.push("[data-part='open sessions'] button")
    operator.is_counted("done", before)
    assert operator.outcome().startswith("No answer.")
    world.start(home(world, account))
    for _ in range(2):
        assert operator.again().startswith(f"Ended session {session}")
    assert balance(world, account)["Buckets"][0]["Reserved"] == 0
    assert not operator.is_seen("#waiting")
