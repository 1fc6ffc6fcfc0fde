"""SIP calls through Kamailio's ims_charging over Ro, a client that nobody here wrote, straight and over
freeDiameter as a relay: each balance is what tshark reads as reported, to the micro-unit."""
from __future__ import annotations

import itertools
import pathlib
import signal
import subprocess
import time
from collections.abc import Iterator

import pytest
from diameter.kamailio import CREDIT, PRICE, Calls
from support.callers import Caller
from support.waiting import until

pytestmark = pytest.mark.slow

NUMBERS = itertools.count(4_920_000)


@pytest.fixture(scope="module")
def straight(home: pathlib.Path, tmp_path_factory: pytest.TempPathFactory) -> Iterator[Calls]:
    """Kamailio at the bridge."""
    calls = Calls(home, tmp_path_factory.mktemp("straight"), is_relayed=False)
    try:
        yield calls.up()
    finally:
        calls.end()


@pytest.fixture
def opened(straight: Calls) -> list[str]:
    """Eight accounts of the test's own with enough money."""
    return [straight.office.account(str(next(NUMBERS)), CREDIT) for _ in range(8)]


def test_one_call(straight: Calls, opened: list[str]) -> None:
    straight.talked(opened[:1])
    assert 7 <= straight.compared(opened[:1]) <= 20


def test_eight_calls_at_once(straight: Calls, opened: list[str]) -> None:
    straight.talked(opened, ms=12000)
    assert straight.compared(opened) >= 8 * 11


def test_five_calls_of_one_account(straight: Calls, opened: list[str]) -> None:
    straight.talked(opened[:1] * 5, ms=6000, rate=50)
    assert straight.compared(opened[:1]) >= 5 * 5


def test_credit_that_runs_out(straight: Calls) -> None:
    account = straight.office.account("491601", 7 * PRICE)
    straight.talked([account], scenario="cut")
    straight.compared([account])
    assert straight.office.sums(account)[3] == 7 * PRICE


def test_refused_calls(straight: Calls) -> None:
    """No credit, an unknown account, a barred one."""
    poor, barred = straight.office.account("491611"), straight.office.account("491612", CREDIT)
    for at in (1, 2):
        straight.office.kill(at)
        words = [*straight.office.shard_words("bar", at), barred]
        subprocess.run(words, check=False, capture_output=True)
        straight.office.start(at)
    time.sleep(2)
    straight.talked([poor, "491699", barred], scenario="refused")
    assert [straight.office.sums(each)[3] for each in (poor, barred)] == [0, 0]


def test_a_top_up_of_a_call_at_its_final_unit(straight: Calls) -> None:
    """Kamailio takes the Re-Auth-Request for its session and answers nothing, so the call ends with
    its grant, as it would without a word."""
    bridge, account = straight.bridge, straight.office.account("491621", 12 * PRICE)
    lost = bridge.measure('reauth_total{result="timeout"}')
    process = straight.call([account], scenario="cut", ms=60000)
    until(lambda: bridge.measure("sessions_at_final_units") == 1, "the final unit")
    body = {"Amount": CREDIT, "Reference": "more"}
    credit = f"/accounts/{account}/credits"
    assert straight.office.script.ask("POST", credit, body).status == 200
    assert bridge.credited(account) == 1
    until(lambda: bridge.measure('reauth_total{result="timeout"}') == lost + 1, "its time")
    assert process.wait(240) == 0
    time.sleep(2)
    assert straight.compared([account]) >= 12
    assert bridge.line(account=account, what="RAR")["code"] == "timeout"


KILLS = [("shard1", 1.0), ("shard2", 3.0), ("haproxy", 1.0), ("haproxy", 2.0), ("bridge", 0.1)]


@pytest.mark.parametrize("what, away", KILLS)
def test_kills_under_calls(straight: Calls, opened: list[str], what: str, away: float) -> None:
    """A part is killed under six calls and comes back. Kamailio doesn't send again what had no
    answer, so what it reported is compared, and what it couldn't report is open."""
    process = straight.call(opened[:6], ms=15000, rate=3)
    time.sleep(5)
    if what == "bridge":
        straight.bridge.stop(signal.SIGKILL)
    elif what == "haproxy":
        assert straight.office.haproxy
        straight.office.haproxy.kill()
        straight.office.haproxy.wait()
    else:
        straight.office.kill(int(what[-1]))
    time.sleep(away)
    if what == "bridge":
        straight.bridge.start()
    elif what == "haproxy":
        straight.office.balance()
    else:
        straight.office.start(int(what[-1]))
    process.wait(240)
    time.sleep(12)
    assert straight.compared(opened[:6], may_hold=True) > 0


def test_no_frame_is_malformed(straight: Calls) -> None:
    count, bad, lengths = straight.frames()
    print(f"{count} frames of Diameter, {len(bad)} malformed, {lengths} with Kamailio's length")
    assert count > 200 and not bad, bad[:5]


def test_calls_over_a_relay(home: pathlib.Path, tmp_path: pathlib.Path) -> None:
    calls = Calls(home, tmp_path, is_relayed=True)
    try:
        calls.up()
        accounts = [calls.office.account(f"4918{at}", CREDIT) for at in range(6)]
        calls.talked(accounts, ms=9000)
        assert calls.compared(accounts) >= 6 * 8
        script = Caller(calls.office, calls.office.place / "office.sock")
        assert script.ask("GET", f"/accounts/{accounts[0]}").status == 200
        for name in ("kamailio", "relay"):
            calls.stop(name)
        time.sleep(1)
        count, bad, lengths = calls.frames()
        print(f"{count} frames over the relay, {len(bad)} malformed, {lengths} of Kamailio's")
        assert count > 50 and not bad, bad[:5]
    finally:
        calls.end()
