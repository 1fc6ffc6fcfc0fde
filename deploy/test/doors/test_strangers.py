"""Who holds an office up: peers that stop in the middle, that say nothing, that are many."""
from __future__ import annotations

import contextlib
import json
import socket
import time
from collections.abc import Callable, Iterator

import pytest
from support.callers import Caller, asked, debit, opened
from support.waiting import until
from support.world import World

ACCOUNT = "70007"


@pytest.fixture(scope="module")
def neighbour(world: World) -> str:
    """Another account of the same shard, which is open."""
    script = Caller(world, world.place / "office.sock")
    opened(script, ACCOUNT)
    home = script.ask("GET", f"/accounts/{ACCOUNT}").shard
    found = next(
        account
        for account in map(str, range(70200, 70300))
        if script.ask("GET", f"/accounts/{account}").shard == home
    )
    return opened(script, found)


def takes(at: Callable[..., Caller], account: str) -> tuple[int, bool]:
    """What a balance of the account is answered, and whether that is soon."""
    begun = time.monotonic()
    status = at("operators", "ada").ask("GET", f"/accounts/{account}").status
    return status, time.monotonic() - begun < 10


BODY = json.dumps(debit(ACCOUNT, "half"))
# Door, head, and what is sent of the body before the peer stops.
STOPPING = {
    "a body of 5,000,000": ("here", "POST /ccr", "Content-Length: 5000000", BODY + " " * 81800),
    "a body of 65,536": ("here", "POST /ccr", "Content-Length: 65536", BODY),
    "a GET with a body": ("desk", f"GET /accounts/{ACCOUNT}", "Content-Length: 50", "x"),
    "a PUT with a body": ("desk", f"PUT /accounts/{ACCOUNT}", "Content-Length: 50", "x"),
    "chunks": ("here", "POST /ccr", "Transfer-Encoding: chunked", "fffff\r\n" + " " * 90000),
    "a head": ("here", "POST /ccr", "X: " + "x" * 70000, ""),
}


@pytest.mark.parametrize("door, line, field, body", STOPPING.values(), ids=list(STOPPING))
def test_others_beside_peers_that_stop(
    world: World,
    at: Callable[..., Caller],
    neighbour: str,
    door: str,
    line: str,
    field: str,
    body: str,
) -> None:
    port = world.doors[door]
    head = f"{line} HTTP/1.1\r\nHost: 127.0.0.1:{port}\r\nContent-Type: application/json\r\n"
    sent = f"{head}{field}\r\n\r\n{body}" if body else head + field
    with contextlib.ExitStack() as opened_peers:
        for _ in range(5):
            peer = opened_peers.enter_context(socket.create_connection(("127.0.0.1", port)))
            peer.settimeout(0.2)
            with contextlib.suppress(OSError):
                peer.sendall(sent.encode())
        time.sleep(0.3)
        assert takes(at, neighbour) == (200, True)


@contextlib.contextmanager
def strangers(port: int, count: int, source: str = "127.0.0.1") -> Iterator[list[socket.socket]]:
    """So many connections to a port, or as many as it lets in, that send nothing."""
    peers: list[socket.socket] = []
    try:
        with contextlib.suppress(OSError):
            for _ in range(count):
                peers.append(socket.socket())
                peers[-1].settimeout(1)
                peers[-1].bind((source, 0))
                peers[-1].connect(("127.0.0.1", port))
        yield peers
    finally:
        for peer in peers:
            peer.close()


def test_700_strangers_at_a_door_of_500(
    world: World, at: Callable[..., Caller], neighbour: str
) -> None:
    with strangers(world.doors["here"], 700) as peers:
        assert len(peers) > 500
        assert takes(at, neighbour) == (200, True)
        assert at("gateways", "pgw-1").ask("GET", "/health").status == 200
        until(lambda: at("here").ask("GET", "/health").status == 200, "the door itself", 10)


def test_250_strangers_who_never_shake_hands(world: World, at: Callable[..., Caller]) -> None:
    with strangers(world.doors["gateways"], 250):
        begun = time.monotonic()
        assert at("gateways", "pgw-1").ask("GET", "/health").status == 200
        assert time.monotonic() - begun < 20


def test_strangers_who_never_shake_hands_are_ended(world: World) -> None:
    with strangers(world.doors["gateways"], 3) as peers:
        time.sleep(3.5)
        assert [peer.recv(1) for peer in peers] == [b""] * 3


def test_one_address_doesnt_fill_a_door(world: World, at: Callable[..., Caller]) -> None:
    """400 connections of one address at a door of 300: it may have 260, another address gets in."""
    with strangers(world.doors["gateways"], 400, "127.0.0.2"):
        one = at("gateways", "pgw-1").connection("127.0.0.3")
        assert asked(one, "GET", "/health").status == 200
        one.close()


def test_a_slow_reader_of_a_long_answer(
    world: World, at: Callable[..., Caller], neighbour: str
) -> None:
    script = at("scripts")
    for one in range(800):
        script.ask("POST", f"/accounts/{ACCOUNT}/credits", {"Amount": 1, "Reference": f"r{one}"})
    port = world.doors["desk"]
    with socket.socket() as peer:
        peer.setsockopt(socket.SOL_SOCKET, socket.SO_RCVBUF, 4096)
        peer.connect(("127.0.0.1", port))
        peer.sendall(f"GET /accounts/{ACCOUNT} HTTP/1.1\r\nHost: 127.0.0.1:{port}\r\n\r\n".encode())
        time.sleep(1)
        assert takes(at, neighbour) == (200, True)
