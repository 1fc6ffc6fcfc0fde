"""An office that is away, slow, busy or wrong; overload; a stop. Each request has an answer, and one
that was answered 3002 isn't carried out later."""
from __future__ import annotations

import pathlib
import subprocess
import threading
import time
from typing import Any

import pytest
from diameter.bridge import Bridge, Office, Stub, good
from diameter.wire import DPR, PATIENCE, Avp, Gateway, ccr, events, seconds, service
from support.waiting import until

SIXTY = service(10, seconds(60))
ANSWER = '{"Result-Code":2001,"Multiple-Services-Credit-Control":[{"Rating-Group":"x"}]}'
PLANS: dict[str, tuple[tuple[int, Any], tuple[int, bool]]] = {
    "400 with a fault": ((400, {"Failed-AVP": "Rating-Group", "Result-Code": 5004}), (5004, False)),
    "a door's 403": ((403, {}), (5003, False)),
    **{
        f"status {code}": ((code, {}), (5012, False))
        for code in (400, 404, 405, 411, 413, 421, 501)
    },
    "no JSON": ((200, b"no json"), (5012, False)),
    "a list": ((200, []), (5012, False)),
    "a Result-Code that is a text": ((200, {"Result-Code": "2001"}), (5012, False)),
    "a service of a wrong kind": ((200, ANSWER.encode()), (5012, True)),
    "an unknown Failed-AVP": (
        (200, {"Failed-AVP": "Nothing-Ever", "Result-Code": 5004}),
        (5012, True),
    ),
}


@pytest.fixture(scope="module")
def peers(starts: Any) -> Any:
    """A bridge that waits five seconds over a stub that goes with the module."""
    stub = Stub()
    yield starts(stub.port, answer_time="5000", queue_time="0"), stub
    stub.stop()


@pytest.fixture(scope="module")
def few(starts: Any) -> Any:
    """A bridge that has 40 requests under way, over a stub that goes with the module."""
    stub = Stub()
    yield starts(stub.port, in_flight="40", queue_time="0"), stub
    stub.stop()


@pytest.mark.parametrize("case", PLANS)
def test_strange_answers(few: tuple[Bridge, Stub], case: str) -> None:
    bridge, stub = few
    plan, told = PLANS[case]
    stub.plan = lambda _: plan
    gateway = Gateway(bridge.port)
    answer = gateway.ask(ccr("strange", 1, 0, SIXTY))
    assert (answer.result, answer.is_error) == told
    stub.plan = good
    assert gateway.ask(ccr("strange", 1, 0, SIXTY)).result == 2001
    gateway.close()


AWAY = {503: 3004, 429: 3004, 408: 3004, 502: 3002, 504: 3002}


def test_an_office_that_is_away_to_the_end(peers: tuple[Bridge, Stub]) -> None:
    """Five sessions at once, each of which gets one status until time is over."""
    bridge, stub = peers
    stub.plan = lambda body: (int(body["Session-Id"]), {"Result-Code": 5012})
    stub.take()
    gateway = Gateway(bridge.port)
    began = time.monotonic()
    hops = {status: gateway.begin(ccr(str(status), 1, 0, SIXTY)) for status in AWAY}
    answers = {status: gateway.wait(hop) for status, hop in hops.items()}
    assert time.monotonic() - began > 4
    tries = [body["Session-Id"] for body in stub.take()]
    for status, answer in answers.items():
        assert answer and answer.is_error
        # The last try may have no answer in time: then it is open.
        assert answer.result in (AWAY[status], 3002)
        assert tries.count(str(status)) > 1
    gateway.close()


def test_it_is_asked_again_with_the_same(few: tuple[Bridge, Stub]) -> None:
    bridge, stub = few
    turns = iter([(503, {"Result-Code": 5012}), None])
    stub.take()
    stub.plan = lambda body: next(turns, good(body))
    gateway = Gateway(bridge.port)
    assert gateway.ask(ccr("again", 1, 0, SIXTY)).result == 2001
    bodies = stub.take()
    assert len(bodies) == 3 and bodies[0] == bodies[1] == bodies[2]
    gateway.close()


def test_a_slow_office(peers: tuple[Bridge, Stub]) -> None:
    """It answers when the gateway has its answer."""
    bridge, stub = peers
    held = threading.Event()
    stub.plan = lambda body: (held.wait(PATIENCE), good(body))[1]
    gateway = Gateway(bridge.port)
    began = time.monotonic()
    assert gateway.ask(ccr("slow", 1, 0, SIXTY)).result == 3002
    assert time.monotonic() - began > 4
    held.set()
    gateway.close()


def test_more_than_may_be_under_way(few: tuple[Bridge, Stub]) -> None:
    """Those beyond it are answered while the others wait for the office."""
    bridge, stub = few
    held = threading.Event()
    stub.plan = lambda body: (held.wait(PATIENCE), good(body))[1]
    gateway = Gateway(bridge.port)
    hops = [gateway.begin(ccr(f"full{at}", 1, 0, SIXTY)) for at in range(300)]
    with gateway.changed:
        assert gateway.changed.wait_for(lambda: len(gateway.came) >= 260, PATIENCE)
    held.set()
    codes = [answer.result for answer in map(gateway.wait, hops) if answer]
    assert (codes.count(2001), codes.count(3004)) == (40, 260)
    assert len(stub.take()) == 40
    assert gateway.ask(ccr("then", 1, 0, SIXTY)).result == 2001
    gateway.close()


def test_signals_that_others_send(few: tuple[Bridge, Stub]) -> None:
    bridge, stub = few
    stub.plan = good
    bridge.reload()
    gateway = Gateway(bridge.port)
    assert gateway.ask(ccr("hup", 1, 0, SIXTY)).result == 2001
    gateway.close()


def test_a_stop_answers_what_is_under_way(few: tuple[Bridge, Stub]) -> None:
    """What comes while it stops is turned away."""
    bridge, stub = few
    held = threading.Event()
    stub.take()
    stub.plan = lambda body: (held.wait(PATIENCE), good(body))[1]
    gateway = Gateway(bridge.port)
    hops = [gateway.begin(ccr(f"stop{at}", 1, 0, SIXTY)) for at in range(6)]
    until(lambda: len(stub.seen) == 6, "six requests")
    ended: list[int] = []
    stopping = threading.Thread(target=lambda: ended.append(bridge.stop()))
    stopping.start()
    until(lambda: gateway.ask(ccr("late", 1, 0, to="x")).result == 3004, "the stop")
    held.set()
    assert [answer.result for answer in map(gateway.wait, hops) if answer] == [2001] * 6
    stopping.join()
    assert ended == [0]
    assert gateway.ended()
    assert [one.get("Disconnect-Cause") for one in gateway.requests if one.code == DPR] == [0]
    stub.plan = good
    bridge.start()
    gateway = Gateway(bridge.port)
    assert gateway.ask(ccr("started", 1, 0, SIXTY)).result == 2001
    gateway.close()


def test_a_taken_port_ends_the_program(
    few: tuple[Bridge, Stub], home: pathlib.Path, tmp_path: pathlib.Path
) -> None:
    second = Bridge(home, tmp_path, few[1].port)
    second.write(listen="[#{ip => {127,0,0,1}, port => %d}]" % few[0].port)
    words = [home / "ocs-diameter", second.file]
    ended = subprocess.run(words, capture_output=True, text=True, timeout=120)
    assert ended.returncode == 1 and ended.stderr.count("\n") == 1, ended.stderr
    assert f"127.0.0.1 port {few[0].port}: address already in use" in ended.stderr


def test_nobody_at_the_office(peers: tuple[Bridge, Stub]) -> None:
    """The last test of this stub."""
    bridge, stub = peers
    stub.stop()
    gateway = Gateway(bridge.port)
    answer = gateway.ask(ccr("nobody", 1, 0, SIXTY))
    assert (answer.result, answer.is_error) == (3002, True)
    gateway.close()


DEBIT: list[Avp] = [("Requested-Action", 0), service(30, events(1))]


def test_what_was_answered_3002_isnt_done_later(office: Office, starts: Any) -> None:
    """Six debits of one account whose shard stands still: the one in the shard's hands may be done,
    the others were in HAProxy's queue, and are dropped with the bridge's connection."""
    # HAProxy turns away what waited for a second; the bridge asks once more, and then never again.
    bridge = starts(office.doors["gateways"], answer_time="6000", queue_time="4500")
    gateway = Gateway(bridge.port)
    account = office.account("49530", 10**6)
    with office.still(office.shard(account)):
        hops = [gateway.begin(ccr(f"late{at}", 4, 0, *DEBIT, account=account)) for at in range(6)]
        codes = [answer.result for answer in map(gateway.wait, hops) if answer]
        assert sorted(codes) == [3002] + [3004] * 5
        until(lambda: office.waiting() == 0, "the queue")
    until(lambda: office.script.ask("GET", f"/accounts/{account}").status == 200, "the shard")
    time.sleep(1)
    assert office.sums(account)[3] <= 90_000
    # Asked again they are done once each.
    again = [gateway.ask(ccr(f"late{at}", 4, 0, *DEBIT, account=account), True) for at in range(6)]
    assert [answer.result for answer in again] == [2001] * 6
    assert office.sums(account)[3] == 540_000
    gateway.close()


@pytest.mark.slow
def test_kills_of_shards_and_haproxy(office: Office, starts: Any) -> None:
    """Updates of ten sessions go on over kills; each used second is charged once."""
    bridge = starts(office.doors["gateways"], answer_time="8000")
    gateway = Gateway(bridge.port)
    accounts = [office.account(f"4954{at}", 10**9) for at in range(10)]
    for at, account in enumerate(accounts):
        assert gateway.ask(ccr(f"kill{at}", 1, 0, SIXTY, account=account)).result == 2001
    stopping = threading.Event()

    def disturb() -> None:
        while not stopping.is_set():
            for at in (1, 2):
                office.kill(at)
                office.start(at)
            assert office.haproxy
            office.haproxy.kill()
            office.haproxy.wait()
            office.balance()
            time.sleep(0.5)

    disturbing = threading.Thread(target=disturb)
    disturbing.start()
    try:
        for number in range(1, 11):
            for at, account in enumerate(accounts):
                part = service(10, seconds(60), [seconds(60)])
                asked = ccr(f"kill{at}", 2, number, part, account=account)
                answer = gateway.ask(asked)
                while answer.result in (3002, 3004):
                    answer = gateway.ask(asked, is_again=True)
                assert answer.result == 2001
    finally:
        stopping.set()
        disturbing.join()
    assert [office.sums(account)[3] for account in accounts] == [10 * 100_000] * 10
    gateway.close()
