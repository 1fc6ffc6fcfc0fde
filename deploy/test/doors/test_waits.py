"""What waits for a shard, for how long, and what becomes of it when its client goes."""
from __future__ import annotations

import collections
import itertools
import json
import select
import socket
import threading
import time
from collections.abc import Callable

import pytest
from support.callers import Answer, Caller, charges, debit, opened
from support.waiting import until
from support.world import SHARDS, World

ACCOUNT = "70006"
TURNS, GOING = 10, 64
UNABLE = '{"Result-Code":5012}'


@pytest.fixture(scope="module")
def home(world: World) -> int:
    """The shard of the account, which has money."""
    script = Caller(world, world.place / "office.sock")
    opened(script, ACCOUNT, 50_000_000)
    return int(script.ask("GET", f"/accounts/{ACCOUNT}").shard)


def asked_bytes(world: World, session: str, account: str) -> bytes:
    """A debit as it is sent."""
    body = json.dumps(debit(account, session))
    head = f"POST /ccr HTTP/1.1\r\nHost: 127.0.0.1:{world.doors['here']}\r\n"
    head += f"Content-Type: application/json\r\nContent-Length: {len(body)}\r\n\r\n"
    return (head + body).encode()


def sent(world: World, session: str, account: str = ACCOUNT) -> socket.socket:
    """A connection over which a debit was sent."""
    peer = socket.create_connection(("127.0.0.1", world.doors["here"]))
    peer.sendall(asked_bytes(world, session, account))
    return peer


def together(caller: Caller, sessions: list[str]) -> dict[str, Answer]:
    """The answers to debits that a gateway asks for, one a moment after the other, as they come."""
    told: dict[str, Answer] = {}

    def ask(session: str) -> None:
        told[session] = caller.ask("POST", "/ccr", debit(ACCOUNT, session))

    threads = [threading.Thread(target=ask, args=(session,)) for session in sessions]
    for thread in threads:
        thread.start()
        time.sleep(0.05)
    return told


def charged_of(
    world: World, at: Callable[..., Caller], home: int, is_at_once: bool
) -> tuple[int, int]:
    """Of 21 debits whose clients go while their shard stands still: how many are charged, and how
    many lines say that their client had gone. The 20 that wait go first, or all go at once."""
    before, begun = charges(at("scripts"), ACCOUNT), time.monotonic_ns()
    with world.still(home):
        peers = [sent(world, f"gone-{begun}-{one}") for one in range(21)]
        until(lambda: world.waiting() == 20, "20 that wait")
        for peer in peers[0 if is_at_once else 1 :]:
            peer.close()
        until(lambda: world.waiting() == 0, "that none waits")
        peers[0].close()
    time.sleep(1)
    gone = [line for line in world.lines() if str(line.get("session")).startswith(f"gone-{begun}-")]
    ended = sum(line["end"].startswith("C") for line in gone)
    return charges(at("scripts"), ACCOUNT) - before, ended


def test_what_waits_goes_with_its_client(
    world: World, at: Callable[..., Caller], home: int
) -> None:
    charged, ended = charged_of(world, at, home, is_at_once=False)
    assert charged <= 1 and ended >= 20


def test_a_gateway_that_is_gone_in_an_instant(
    world: World, at: Callable[..., Caller], home: int
) -> None:
    """HAProxy gives up the one under way, and hands on some before it sees that they are gone."""
    charged, ended = charged_of(world, at, home, is_at_once=True)
    assert charged <= 10 and ended >= 20


def asked_until_they_go(world: World, account: str, turn: int) -> None:
    """Connections that ask without a pause for a while, and close with their requests under way."""
    names = (f"held-{turn}-{one}" for one in itertools.count())
    peers = [sent(world, next(names), account) for _ in range(GOING)]
    end = time.monotonic() + 0.7
    while time.monotonic() < end:
        for peer in select.select(peers, [], [], 0.1)[0]:
            peer.recv(65536)
            peer.sendall(asked_bytes(world, next(names), account))
    for peer in peers:
        peer.close()


def test_gateways_that_go_hold_nobody(world: World, at: Callable[..., Caller]) -> None:
    """A client may go in the instant in which its turn comes: who waits behind it is asked soon."""
    account = opened(at("scripts"), "70020", 10**12)
    for turn in range(TURNS):
        asked_until_they_go(world, account, turn)
        begun, last = time.monotonic(), debit(account, f"held-{turn}")
        assert at("here").patient(60).ask("POST", "/ccr", last).status == 200
        assert time.monotonic() - begun < 10, "it waited until the time of another's turn was over"


def test_three_that_wait_for_six_seconds_are_answered(
    world: World, at: Callable[..., Caller], home: int
) -> None:
    with world.still(home):
        told = together(at("here").patient(60), ["late-1", "late-2", "late-3"])
        time.sleep(6)
        assert not told
    until(lambda: len(told) == 3, "three answers")
    assert {answer.status for answer in told.values()} == {200}


def test_a_shard_that_stands_still(world: World, at: Callable[..., Caller], home: int) -> None:
    """The one under way is 504, and may be done later; those that wait are 503, and never are."""
    before = charges(at("scripts"), ACCOUNT)
    with world.still(home):
        told = together(at("here").patient(60), [f"still-{one}" for one in range(4)])
        until(lambda: len(told) == 4, "four answers")
    time.sleep(1)
    codes = collections.Counter(answer.status for answer in told.values())
    assert set(codes) == {503, 504}
    assert {answer.text for answer in told.values()} == {UNABLE}
    assert all("x-request-id" in answer.fields for answer in told.values())
    assert charges(at("scripts"), ACCOUNT) - before <= codes[504]


def test_others_are_answered_beside_it(world: World, at: Callable[..., Caller], home: int) -> None:
    script = at("scripts")
    other = next(
        account
        for account in map(str, range(70100, 70200))
        if script.ask("GET", f"/accounts/{account}").shard != f"{home:02}"
    )
    with world.still(home):
        told = together(at("here").patient(60), ["beside"])
        assert at("desk").ask("GET", f"/accounts/{other}").status == 200
        assert not told
    until(lambda: len(told) == 1, "its answer")


def test_a_shard_that_is_away(world: World, at: Callable[..., Caller], home: int) -> None:
    world.kill(home)
    watcher = at("measures").patient(60)
    assert watcher.ask("GET", f"/health/{home:02}").status == 503
    assert watcher.ask("GET", f"/health/{home % SHARDS + 1:02}").status == 200
    told = together(at("here").patient(60), ["away"])
    time.sleep(3.5)
    assert not told
    world.start(home)
    until(lambda: len(told) == 1, "its answer")
    assert told["away"].body["Result-Code"] == 2001
    assert watcher.ask("GET", f"/health/{home:02}").status == 200
    assert watcher.ask("GET", "/health/77").status == 404


def test_a_kill_and_the_same_again(world: World, at: Callable[..., Caller], home: int) -> None:
    first = at("here").ask("POST", "/ccr", debit(ACCOUNT, "killed"))
    world.kill(home)
    world.start(home)
    assert at("here").patient(60).ask("POST", "/ccr", debit(ACCOUNT, "killed")).text == first.text
