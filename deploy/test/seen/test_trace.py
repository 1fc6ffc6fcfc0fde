"""`office trace` over the log that HAProxy writes: each kind of answer, from outside."""
from __future__ import annotations

import base64
import contextlib
import itertools
import json
import re
import socket
import time
from collections.abc import Callable

import pytest
from support.callers import Caller, asked, debit, opened, refund, subscription
from support.waiting import until
from support.world import World

At = Callable[..., Caller]


def traced(world: World, account: str, *words: str) -> list[str]:
    """The sentences of an account, without their moment and id."""
    text = world.command("trace", account, *words)
    form = r"[0-9]{4}-[0-9]{2}-[0-9]{2} [0-9:]{8}\.[0-9]{3} (.*) \[[0-9a-f]{8}\]"
    found = [re.fullmatch(form, line) for line in text.splitlines()]
    assert all(found), text
    return [each[1] for each in found if each]


def session(account: str, name: str, kind: int, number: int) -> dict[str, object]:
    """A request of a session of service 10."""
    service: dict[str, object] = {"Rating-Group": 10}
    if kind < 3:
        service["Requested-Service-Unit"] = {}
    return {
        "Session-Id": name,
        "CC-Request-Type": kind,
        "CC-Request-Number": number,
        "Subscription-Id": subscription(account),
        "Multiple-Services-Credit-Control": [service],
    }


def test_what_was_done(world: World, script: Caller, at: At) -> None:
    account = opened(script, "49151", 1_000_000)
    script.ask("PUT", f"/accounts/{account}")
    pgw = at("gateways", "pgw-1")
    assert pgw.ask("POST", "/ccr", session(account, "s1", 1, 0)).status == 200
    assert pgw.ask("POST", "/ccr", session(account, "s1", 3, 1)).status == 200
    assert pgw.ask("POST", "/ccr", session(account, "s1", 2, 2)).status == 200
    at("operators", "ada").ask("GET", f"/accounts/{account}")
    found = traced(world, account)
    assert found[:3] == [
        "scripts at scripts: opening /accounts/49151: accepted (2001)",
        "scripts at scripts: credit of 1000000 under first-49151: accepted (2001)",
        "scripts at scripts: opening /accounts/49151: refused, the account is there already (O1)",
    ]
    begins = re.escape("pgw-1 at gateways: initial request 0 of session s1: accepted (2001), ")
    assert re.fullmatch(begins + "[0-9]+ granted", found[3])
    assert found[4:] == [
        "pgw-1 at gateways: termination 1 of session s1: accepted (2001)",
        "pgw-1 at gateways: update 2 of session s1: refused, no such session is open (5002)",
        "ada at operators: reading /accounts/49151: answered",
    ]
    assert len(traced(world, account, "--session", "s1")) == 3
    lines = [json.loads(line) for line in world.command("trace", account, "--json").splitlines()]
    assert [line["account"] for line in lines] == [account] * 7


def test_what_was_refused(world: World, script: Caller, at: At) -> None:
    account, here = opened(script, "49152"), at("here")
    here.ask("POST", "/ccr", debit(account, "e1"))
    here.ask("POST", "/ccr", debit("777", "e2"))
    script.ask("POST", f"/accounts/{account}/credits", {"Amount": -1, "Reference": "c"})
    script.ask("POST", "/vouchers/000000000000/redeem", voucher(account))
    script.ask("POST", f"/accounts/{account}/credits", {"Amount": 5, "Reference": "c", "Ends": 1})
    found = traced(world, account)[1:]
    assert found[0] == "here at here: event 0 of session e1: denied, no money for it (4012)"
    assert found[1].endswith(": refused, a member doesn't fit (5004)")
    assert found[2] == "scripts at scripts: redemption under v: refused, no such voucher (O3)"
    assert traced(world, "777") == [
        "here at here: event 0 of session e2: refused, no such account (5030)"
    ]


def voucher(account: str) -> dict[str, object]:
    """A redemption's body."""
    return {"Subscription-Id-Data": account, "Reference": "v"}


def test_who_was_turned_away(world: World, script: Caller, at: At) -> None:
    account = "49153"
    credit = {"Amount": 5, "Reference": "c1"}
    path = f"/accounts/{account}/credits"
    at("operators", "audit").ask("POST", path, credit)
    at("operators", "pgw-1").ask("GET", f"/accounts/{account}")
    at("operators").ask("GET", f"/accounts/{account}", Authorization=basic("grace", "wrong"))
    at("desk").ask("POST", path, credit, Origin="http://evil.example")
    at("desk").ask("POST", path, credit, Host="evil.example")
    at("desk").ask("POST", path, credit, Content_Type="text/plain")
    at("desk").ask("POST", path, credit, Office_Shard="01")
    at("here").ask("POST", path, credit)
    at("here").ask("POST", "/ccr", refund(account, "f1"))
    told = "credit of 5 under c1: turned away "
    assert traced(world, account) == [
        f"audit at operators: {told}(403), it may only read",
        f"pgw-1 at operators: reading /accounts/{account}: turned away (403), "
        "its certificate has another role",
        f"- at operators: reading /accounts/{account}: turned away (401), "
        "its name and password aren't an operator's",
        f"desk at desk: {told}(403), a page of another site asked",
        f"desk at desk: {told}(421), it asked for another host",
        f"desk at desk: {told}(415), its body isn't called JSON",
        f"desk at desk: {told}(403), it named a shard",
        f"here at here: {told}(403), its role may not ask that",
        "here at here: event 0 of session f1: turned away (403), it may not refund",
    ]
    assert "wrong" not in world.log.read_text()


def basic(name: str, password: str) -> str:
    """The field of a name and a password."""
    return "Basic " + base64.b64encode(f"{name}:{password}".encode()).decode()


def test_who_asks_too_often(world: World, script: Caller, at: At) -> None:
    account = opened(script, "49154", 1_000_000)
    one, names = at("gateways", "pgw-1").connection(), itertools.count()
    until(
        lambda: asked(one, "POST", "/ccr", debit(account, f"r{next(names)}")).status == 429,
        "a request too many",
    )
    one.close()
    found = [line for line in traced(world, account) if "turned away" in line]
    assert found
    assert all(line.endswith("turned away (429), it asked too often") for line in found)


def shard_of(script: Caller, account: str) -> int:
    """The number of an account's shard."""
    return int(script.ask("GET", f"/accounts/{account}").shard)


def test_a_shard_that_is_away(world: World, script: Caller, at: At) -> None:
    account = opened(script, "49155", 1_000_000)
    shard = shard_of(script, account)
    world.kill(shard)
    try:
        assert at("here").ask("POST", "/ccr", debit(account, "a1")).status == 503
    finally:
        world.start(shard)
    told = traced(world, account)[-1].partition("; waited")[0]
    assert told == "here at here: event 0 of session a1: not done (503)"


def test_a_shard_that_stands_still(world: World, script: Caller, at: At) -> None:
    account = opened(script, "49156", 1_000_000)
    with world.still(shard_of(script, account)):
        assert at("here").ask("POST", "/ccr", debit(account, "h1")).status == 504
        leave(world, at("here"), debit(account, "h2"))
    told = [line.partition("; waited")[0] for line in traced(world, account)[-2:]]
    assert told[0] == "here at here: event 0 of session h1: no answer came (504); it may be done"
    assert told[1].startswith("here at here: event 0 of session h2: its client went away; ")
    # What was under way when it stood still was done when it went on.
    again = at("here").ask("POST", "/ccr", debit(account, "h1"))
    assert again.body["Result-Code"] == 2001


def leave(world: World, caller: Caller, body: dict[str, object]) -> None:
    """A client sends a request and goes away before the answer."""
    one, text = caller.connection(), json.dumps(body)
    one.request("POST", "/ccr", text, {"Content-Type": "application/json"})
    time.sleep(0.3)
    one.close()
    until(lambda: str(body["Session-Id"]) in world.log.read_text(), "the line of who left")


def test_texts_of_clients_stay_texts(world: World, script: Caller) -> None:
    account = "49157"
    body = {"Amount": 5, "Reference": 'c","who":"root","x":"\x1b[2J\n'}
    script.ask("POST", f"/accounts/{account}/credits", body)
    (line,) = traced(world, account)
    assert line.startswith(
        'scripts at scripts: credit of 5 under c","who":"root","x":"\\x1b[2J\\n: '
    )


def test_a_handshake_that_fails_is_a_line_of_no_account(world: World) -> None:
    with contextlib.suppress(OSError), socket.create_connection(
        ("127.0.0.1", world.doors["gateways"]), 5
    ) as peer:
        peer.sendall(b"GET / HTTP/1.1\r\n\r\n")
        peer.recv(100)
    until(lambda: '"why":"connection"' in world.log.read_text(), "a line of the handshake")


def test_since_and_accounts(world: World, script: Caller) -> None:
    account = opened(script, "49158")
    assert len(traced(world, account, "-1 min")) == 1
    later = time.strftime("%Y-%m-%d %H:%M:%S UTC", time.gmtime(time.time() + 60))
    none = world.office("trace", account, later)
    assert (none.returncode, none.stdout) == (1, "") and "no line" in none.stderr
    assert world.office("trace", "4915").returncode == 1
    for words in (("x49158",), (account, "when it rained"), ("1" * 16,)):
        wrong = world.office("trace", *words)
        assert (wrong.returncode, wrong.stdout) == (2, ""), words


@pytest.mark.parametrize("bytes_after", [0, 3])
def test_a_line_that_is_being_written_is_left_out(
    world: World, script: Caller, bytes_after: int
) -> None:
    account = opened(script, f"4916{bytes_after}")
    whole = world.command("trace", account, "--json").encode()
    log = world.place / "log"
    before = log.read_bytes()
    until(lambda: log.read_bytes() == before, "a quiet log")
    file = world.place / "cut.toml"
    file.write_text(world.file.read_text().replace(str(log), str(world.place / "cut")))
    (world.place / "cut").write_bytes(whole + whole[: -2 - bytes_after])
    told = world.office("--file", file, "trace", account)
    assert len(told.stdout.splitlines()) == 1
