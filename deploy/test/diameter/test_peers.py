"""Connections of gateways: none of their requests is lost without an answer, and those of one
session keep their order."""
from __future__ import annotations

import concurrent.futures
import contextlib
import pathlib
import socket
import struct
import threading
import time
import urllib.request
from typing import Any

import pytest
from diameter.bridge import Bridge, Stub, good
from diameter.wire import (
    CCR,
    DPR,
    DWR,
    PATIENCE,
    REQUEST,
    Avp,
    Gateway,
    ccr,
    greeting,
    message,
    read_message,
    seconds,
    service,
)
from support.waiting import until

SIXTY = service(10, seconds(60))


@pytest.fixture(scope="module")
def peers(starts: Any) -> Any:
    """A bridge over a stub that goes with the module."""
    stub = Stub()
    yield starts(stub.port, in_flight="1000"), stub
    stub.stop()


@pytest.fixture
def bridge(peers: tuple[Bridge, Stub]) -> Bridge:
    """The module's bridge."""
    return peers[0]


@pytest.fixture
def asked(peers: tuple[Bridge, Stub]) -> Stub:
    """What it asks, as good as new."""
    peers[1].plan = good
    peers[1].take()
    return peers[1]


def answered(port: int, host: str, is_reset: bool = False) -> bool:
    """Whether a request in the very moment in which CEA is read is answered 2001."""
    second = message(*ccr(f"{host};{time.monotonic_ns()}", 1, 0, SIXTY, host=host), 2, 2)
    with socket.create_connection(("127.0.0.1", port), PATIENCE) as one:
        if is_reset:
            one.setsockopt(socket.SOL_SOCKET, socket.SO_LINGER, struct.pack("ii", 1, 0))
        one.sendall(message(*greeting(host), 1, 1))
        with contextlib.suppress(OSError):
            read_message(one)
            one.sendall(second)
            while came := read_message(one):
                if came.code == CCR:
                    return bool(came.result == 2001)
    return False


BEHIND: dict[str, tuple[list[str], int, bool]] = {
    "one by one": ([f"a{at}.example" for at in range(200)], 1, False),
    "20 at once": ([f"b{at}.example" for at in range(200)], 20, False),
    "after a reconnect": (["gw.example"] * 200, 1, False),
    "after a reset": (["gw.example"] * 200, 1, True),
    "one host, 20 at once": (["gw.example"] * 200, 20, False),
}


@pytest.mark.parametrize("case", BEHIND)
def test_requests_right_behind_cea(bridge: Bridge, asked: Stub, case: str) -> None:
    hosts, at_once, is_reset = BEHIND[case]
    with concurrent.futures.ThreadPoolExecutor(at_once) as pool:
        told = list(pool.map(lambda host: answered(bridge.port, host, is_reset), hosts))
    assert told.count(True) == 200
    assert len(asked.take()) == 200


def vendor_specific(vendor: int) -> Avp:
    """Application 4 of a vendor."""
    own: list[Avp] = [("Vendor-Id", vendor), ("Auth-Application-Id", 4)]
    return ("Vendor-Specific-Application-Id", own)


CAPABILITIES: dict[str, tuple[list[Avp], int]] = {
    "application 4": ([("Auth-Application-Id", 4)], 2001),
    "application 4 of 3GPP alone": ([vendor_specific(10415)], 2001),
    "both": (
        [("Supported-Vendor-Id", 10415), ("Auth-Application-Id", 4), vendor_specific(10415)],
        2001,
    ),
    "a relay": ([("Auth-Application-Id", 0xFFFFFFFF)], 2001),
    "many": (
        [("Auth-Application-Id", 4), ("Auth-Application-Id", 1), ("Acct-Application-Id", 3)],
        2001,
    ),
    "none in common": ([("Auth-Application-Id", 1)], 5010),
}


@pytest.mark.parametrize("case", CAPABILITIES)
def test_capabilities(bridge: Bridge, asked: Stub, case: str) -> None:
    capabilities, code = CAPABILITIES[case]
    gateway = Gateway(bridge.port, "caps.example", capabilities)
    assert gateway.cea.result == code
    if code == 2001:
        assert gateway.cea.every("Auth-Application-Id") == [4]
        assert gateway.ask(ccr("caps", 1, 0, SIXTY, host="caps.example")).result == 2001
    gateway.close()


def test_a_second_connection_of_a_host(bridge: Bridge, asked: Stub) -> None:
    old, new = Gateway(bridge.port), Gateway(bridge.port)
    assert new.cea.result == 2001
    assert [each.ask(ccr("two", 1, 0, SIXTY)).result for each in (old, new, old)] == [2001] * 3
    new.close()
    assert old.ask(ccr("two", 1, 0, SIXTY)).result == 2001
    old.close()


def test_a_message_in_pieces_and_a_large_one(bridge: Bridge, asked: Stub) -> None:
    gateway = Gateway(bridge.port)
    raw = message(*ccr("slow", 1, 0, SIXTY), 9001, 9001)
    gateway.send(raw[:30])
    time.sleep(2.5)
    gateway.send(raw[30:])
    came = gateway.wait(9001)
    assert came and came.result == 2001
    large: Avp = ("Service-Information", [((4321, 10415), b"x" * 60000)])
    assert gateway.ask(ccr("large", 1, 0, SIXTY, large)).result == 2001
    gateway.close()


def test_many_requests_on_one_connection(bridge: Bridge, asked: Stub) -> None:
    gateway = Gateway(bridge.port)
    hops = [gateway.begin(ccr(f"pipe{at}", 1, 0, SIXTY)) for at in range(500)]
    told = [gateway.wait(hop) for hop in hops]
    assert [each.result for each in told if each] == [2001] * 500
    gateway.close()


def test_an_answer_doesnt_wait_for_the_other_end(bridge: Bridge) -> None:
    """Of two answers the second one goes before the first is acknowledged, which takes 40 ms."""
    gateway = Gateway(bridge.port)
    took = []
    for hop in range(1000, 1040, 2):
        both = [message(*ccr("two", 1, 0, to="x"), hop + at, hop + at) for at in (0, 1)]
        began = time.monotonic()
        gateway.send(b"".join(both))
        assert gateway.wait(hop) and gateway.wait(hop + 1)
        took.append(time.monotonic() - began)
    assert min(took) < 0.03
    gateway.close()


@pytest.mark.slow
def test_a_gateway_that_reads_no_answer(starts: Any, stub: Stub) -> None:
    """Its requests are read no faster than its answers go, and its connection is ended."""
    bridge = starts(stub.port)
    others = Gateway(bridge.port)
    asked = message(*ccr("deaf", 1, 0, to="x", host="deaf.example"), 9, 9) * 100
    memory = bridge.memory()
    with socket.create_connection(("127.0.0.1", bridge.port), PATIENCE) as deaf:
        deaf.sendall(message(*greeting("deaf.example"), 1, 1))
        with pytest.raises(ConnectionError):
            for _ in range(5000):
                deaf.sendall(asked)
    assert others.ask(ccr("beside", 1, 0, SIXTY)).result == 2001
    assert bridge.memory() < memory + 128 * 1024
    others.close()


def test_watchdog_and_disconnect(bridge: Bridge, asked: Stub) -> None:
    gateway = Gateway(bridge.port)
    assert gateway.ask((DWR, 0, gateway.origin(), REQUEST)).result == 2001
    bye: list[Avp] = [*gateway.origin(), ("Disconnect-Cause", 0)]
    assert gateway.ask((DPR, 0, bye, REQUEST)).result == 2001
    gateway.close()


@pytest.mark.slow
def test_a_silent_connection_is_watched(starts: Any, stub: Stub) -> None:
    bridge = starts(stub.port, watchdog_timer="6000")
    gateway = Gateway(bridge.port)
    assert gateway.asked(DWR)
    assert gateway.ask(ccr("watched", 1, 0, SIXTY)).result == 2001
    gateway.close()


JUNK = {
    "HTTP": b"GET / HTTP/1.1\r\n\r\n",
    "an empty message": b"\1\0\0\x14" + b"\0" * 16,
    "a short length": b"\1\0\0\x08aaaa",
    "ones": b"\xff" * 4096,
    "half a greeting": message(257, 0, [("Origin-Host", "x")], 0x80)[:25],
    "another version": b"\2\0\0\x14" + b"\0" * 16,
    "a TLS hello": bytes.fromhex("160301020001"),
}


@pytest.mark.parametrize("case", JUNK)
def test_garbage_harms_nobody_else(bridge: Bridge, asked: Stub, case: str) -> None:
    gateway = Gateway(bridge.port)
    for _ in range(40):
        with socket.create_connection(("127.0.0.1", bridge.port)) as one:
            one.sendall(JUNK[case])
    assert gateway.ask(ccr("beside", 1, 0, SIXTY)).result == 2001
    gateway.close()


def test_a_wrong_length_ends_its_connection(bridge: Bridge, asked: Stub) -> None:
    gateway = Gateway(bridge.port, "bad.example")
    gateway.send(b"\1\0\0\x1d\xc0\0\1\x10\0\0\0\4" + b"\0" * 17)
    assert gateway.ended()


def test_the_order_within_a_session(bridge: Bridge, asked: Stub) -> None:
    def slow(body: dict[str, Any]) -> tuple[int, Any]:
        time.sleep(0.02 if body["CC-Request-Number"] % 2 == 0 else 0)
        return good(body)

    gateway = Gateway(bridge.port)
    asked.plan = slow
    part = service(10, seconds(5), [seconds(1)])
    hops = [gateway.begin(ccr(f"ord{at}", 2, n, part)) for n in range(20) for at in range(10)]
    assert all(map(gateway.wait, hops))
    seen: dict[str, list[int]] = {}
    for body in asked.take():
        seen.setdefault(body["Session-Id"], []).append(body["CC-Request-Number"])
    assert list(seen.values()) == [list(range(20))] * 10
    gateway.close()


def test_other_sessions_dont_wait(bridge: Bridge, asked: Stub) -> None:
    held = threading.Event()

    def slow(body: dict[str, Any]) -> tuple[int, Any]:
        if body["Session-Id"] == "slow":
            held.wait(PATIENCE)
        return good(body)

    asked.plan = slow
    gateway = Gateway(bridge.port)
    first = gateway.begin(ccr("slow", 2, 1, SIXTY))
    assert gateway.ask(ccr("fast", 2, 1, SIXTY)).result == 2001
    assert first not in gateway.came
    held.set()
    assert gateway.wait(first)
    gateway.close()


def test_peers_by_name(starts: Any, stub: Stub) -> None:
    bridge = starts(stub.port, peers='["gw.example", "GW2.example"]')
    for host, code in (("gw.example", 2001), ("gw2.example", 2001), ("gw3.example", 3010)):
        gateway = Gateway(bridge.port, host)
        assert gateway.cea.result == code
        if code == 2001:
            assert gateway.ask(ccr(f"by-{host}", 1, 0, SIXTY, host=host)).result == 2001
        gateway.close()
    assert bridge.measure('peers_refused_total{reason="name"}') == 1


def test_a_host_that_is_no_name(bridge: Bridge) -> None:
    """No row of the measures, and no line, has such a name."""
    gateway = Gateway(bridge.port, "gw\u00e4.example")
    assert gateway.cea.result == 3010
    gateway.close()


def test_ports_of_ipv6(home: pathlib.Path, tmp_path: pathlib.Path, stub: Stub) -> None:
    """One for gateways, and the bridge's own."""
    bridge, here = Bridge(home, tmp_path, stub.port), "{0,0,0,0,0,0,0,1}"
    ports = ", ".join("#{ip => %s, port => PORT}" % ip for ip in ("{127,0,0,1}", here))
    bridge.write(listen=f"[{ports}]", watch="{%s, %d}" % (here, bridge.watch))
    bridge.start()
    try:
        until(lambda: "listening [::1]" in bridge.errors.read_text(), "the second port")
        gateway = Gateway(bridge.port, address="::1")
        assert gateway.ask(ccr("six", 1, 0, SIXTY)).result == 2001
        line = bridge.line(session="six")
        assert line["peer"] == "[::1]:%d" % gateway.connection.getsockname()[1]
        gateway.close()
        with urllib.request.urlopen(f"http://[::1]:{bridge.watch}/health") as answer:
            assert answer.status == 200
    finally:
        bridge.stop()
