"""Who may ask the agent what: each kind of caller at each route, other origins, fields of strangers."""
from __future__ import annotations

import itertools
import socket

import pytest

from agent.running import OF_LAST, Agent
from support.callers import NO_CONNECTION, Caller, asked, opened

BASE = "/office/agent"
JSON, TOML, CSV = "application/json", "application/toml", "text/csv"
CODE = OF_LAST[-1]
# Method, path, the body's type, whether it changes something.
ROUTES = {
    "account": ("GET", "/account/55001", None, False),
    "bar": ("POST", "/bar/55001", JSON, True),
    "unbar": ("POST", "/unbar/55001", JSON, True),
    "books": ("GET", "/books", None, False),
    "trial": ("POST", "/trial?from=1", TOML, False),
    "vouchers": ("POST", "/vouchers/check", CSV, False),
    "sums": ("GET", "/sums?month=202001", None, False),
    "shards": ("GET", "/shards", None, False),
    "redeem": ("POST", "/redeem", JSON, True),
}
# Door, certificate, and what it is refused with; none: it is an operator. Who only reads or redeems is
# refused all else.
CALLERS = {
    "an operator by certificate": ("operators", "ada", None),
    "an operator who only reads": ("operators", "audit", "reads"),
    "an operator of this machine": ("desk", None, None),
    "a shop by certificate": ("shops", "shop-8", "redeems"),
    "a shop of this machine": ("counter", None, "redeems"),
    "a gateway by certificate": ("gateways", "pgw-2", 403),
    "a gateway of this machine": ("here", None, 403),
    "a watcher": ("measures", None, 403),
    "a gateway at the operators' door": ("operators", "pgw-2", 403),
    "nobody at the operators' door": ("operators", None, 401),
    "nobody at the shops' door": ("shops", None, NO_CONNECTION),
}


@pytest.fixture(scope="module", autouse=True)
def account(agent: Agent) -> None:
    """The account that is asked about is open."""
    opened(agent.script(), "55001")


@pytest.mark.parametrize("who, what", list(itertools.product(CALLERS, ROUTES)))
def test_a_caller_at_a_route(agent: Agent, who: str, what: str) -> None:
    door, name, refused = CALLERS[who]
    method, path, kind, changes = ROUTES[what]
    fields = {"Content_Type": kind} if kind else {}
    answer = agent.at(door, name).patient(90).ask(method, BASE + path, **fields)
    is_let = {"reads": not changes, "redeems": what == "redeem"}
    if refused is None or is_let.get(str(refused)):
        # Without systemd a bar is refused by the agent; a body that is empty is read by nobody.
        assert answer.status in (200, 400, 409) and "as_of" in answer.body
    elif refused == 401:
        # An address that was refused often is told to come later.
        assert answer.status in (401, 429)
    else:
        assert answer.status == (403 if refused in is_let else refused)
    if refused is not None and not is_let.get(str(refused)):
        assert "as_of" not in answer.text


@pytest.mark.parametrize("what", ROUTES)
def test_a_script_asks_words_not_the_agent(agent: Agent, script: Caller, what: str) -> None:
    method, path, _, _ = ROUTES[what]
    assert script.ask(method, BASE + path).status == 403


@pytest.mark.parametrize(
    "field, value", (("Origin", "https://evil.example"), ("Sec_Fetch_Site", "cross-site"))
)
@pytest.mark.parametrize("what", ROUTES)
def test_a_page_of_another_site(ada: Caller, what: str, field: str, value: str) -> None:
    method, path, kind, _ = ROUTES[what]
    fields = {field: value} | ({"Content_Type": kind} if kind else {})
    assert ada.ask(method, BASE + path, **fields).status == 403


def test_the_page_itself(agent: Agent, ada: Caller) -> None:
    origin = f"https://localhost:{agent.world.doors['operators']}"
    fields = {"Origin": origin, "Sec_Fetch_Site": "same-origin"}
    assert ada.ask("GET", BASE + "/shards", **fields).status == 200


def test_a_reader_changes_nothing(audit: Caller, script: Caller) -> None:
    body = {"Account": "55001", "Code": CODE, "Reference": "r1"}
    assert audit.ask("POST", BASE + "/redeem", body).status == 403
    assert script.ask("GET", "/accounts/55001").body["Buckets"] == []


def test_a_stranger_names_itself(agent: Agent, audit: Caller, ada: Caller) -> None:
    """The fields by which the doors tell who asks are theirs alone."""
    named = {"Office_Caller": "root", "Office_May": "write", "X_Request_Id": "mine"}
    body = {"Account": "55001", "Code": CODE, "Reference": "r1"}
    assert audit.ask("POST", BASE + "/redeem", body, **named).status == 403
    told = ada.ask("GET", BASE + "/shards", **named | {"Office_May": "read"})
    line = agent.line(told.fields["x-request-id"])
    assert (line["who"], line["id"] == "mine") == ("ada", False)


REFUSED = [
    ("read", "POST", "/bar/55001"),
    ("redeem", "POST", "/bar/55001"),
    ("redeem", "GET", "/account/55001"),
    ("redeem", "GET", "/shards"),
    ("redeem", "POST", "/vouchers/check"),
    ("another", "GET", "/shards"),
]


@pytest.mark.parametrize("may, method, path", REFUSED)
def test_the_agent_refuses_it_too(agent: Agent, may: str, method: str, path: str) -> None:
    """What the doors say is enough for the agent."""
    fields = f"Host: x\r\nOffice-Caller: someone\r\nOffice-May: {may}\r\nContent-Length: 0"
    with socket.socket(socket.AF_UNIX) as peer:
        peer.settimeout(30)
        peer.connect(str(agent.socket))
        peer.sendall(f"{method} {BASE}{path} HTTP/1.1\r\n{fields}\r\n\r\n".encode())
        got = b"".join(iter(lambda: peer.recv(65536), b""))
    assert got.startswith(b"HTTP/1.1 403") and f"someone may only {may}".encode() in got


NOT_THERE = {
    "a route": ("GET", "/nothing", 404),
    "another method": ("DELETE", "/bar/55001", 405),
    "a number that is too long": ("GET", "/account/1234567890123456", 404),
    "a piece of HTML": ("GET", "/account/%3Cb%3E", 404),
    "an account that is none": ("POST", "/bar/x", 404),
    "signs behind the ?": ("GET", "/account/55001?month=%3Cb%3E", 404),
    "below": ("GET", "/account/55001/x", 404),
    "the prefix": ("GET", "", 404),
}


@pytest.mark.parametrize("method, path, status", NOT_THERE.values(), ids=list(NOT_THERE))
def test_what_is_not_there(ada: Caller, method: str, path: str, status: int) -> None:
    assert ada.ask(method, BASE + path).status == status


def test_a_kept_connection_asks_both(ada: Caller) -> None:
    """The page's connection asks shards and the agent in turns."""
    one = ada.connection()
    try:
        for _ in range(5):
            assert asked(one, "GET", "/accounts/55001").fields["office-shard"]
            told = asked(one, "GET", BASE + "/books")
            assert told.status == 200 and "office-shard" not in told.fields
    finally:
        one.close()


def test_without_the_agent_all_else_goes_on(agent: Agent, ada: Caller) -> None:
    agent.kill()
    try:
        assert ada.ask("GET", BASE + "/shards").status == 503
        assert ada.ask("GET", "/accounts/55001").status == 200
    finally:
        agent.start()
    assert ada.ask("GET", BASE + "/shards").status == 200


def test_a_second_agent_is_refused(agent: Agent) -> None:
    told = agent.world.office("agent", timeout=60)
    assert told.returncode == 1 and "listens at" in told.stderr


def test_a_stop_ends_it(agent: Agent, ada: Caller) -> None:
    assert agent.stop() == 0
    assert list(agent.world.place.glob(".agent-*")) == []
    agent.start()
    assert ada.ask("GET", BASE + "/shards").status == 200
