"""A top-up reaches a subscriber who is at a final unit, by a Re-Auth-Request (RFC 8506 5.5); and two
bridges before one office."""
from __future__ import annotations

import signal
import threading
import time
from collections.abc import Iterator
from typing import Any

import pytest
from diameter.bridge import Bridge, Office, Stub, good
from diameter.wire import PATIENCE, RAR, Gateway, Message, ccr, events, octets, seconds, service
from support.waiting import until

GSU = "Granted-Service-Unit"


@pytest.fixture(scope="module")
def bridge(office: Office, starts: Any) -> Any:
    """A bridge whose remembered sessions are counted here."""
    return starts(office.doors["gateways"])


@pytest.fixture
def gateway(bridge: Bridge) -> Iterator[Gateway]:
    """A gateway that is connected."""
    one = Gateway(bridge.port)
    yield one
    one.close()


def credit(office: Office, account: str, amount: int, reference: str) -> None:
    """A credit by an operator."""
    body = {"Amount": amount, "Reference": reference}
    assert office.script.ask("POST", f"/accounts/{account}/credits", body).status == 200


def test_a_credit_at_a_final_unit(office: Office, bridge: Bridge, gateway: Gateway) -> None:
    account = office.account("49600", 300_000)
    first = gateway.ask(ccr("f1", 1, 0, service(10, seconds(600)), account=account))
    assert "Final-Unit-Indication" in first.services[0]
    assert first.services[0][GSU] == seconds(180)
    assert bridge.measure("sessions_at_final_units") == 1
    credit(office, account, 10**6, "more")
    assert bridge.credited(account) == 1
    [asked] = gateway.asked(RAR)
    names = ("Session-Id", "Destination-Host", "Destination-Realm", "Auth-Application-Id")
    assert [asked.get(name) for name in names] == ["f1", "gw.example", "example", 4]
    assert asked.get("Re-Auth-Request-Type") == 0 and asked.get("Rating-Group") == 10
    assert asked.get("Origin-Host") == "ocs.example" and asked.application == 4
    assert asked.flags & 0xC0 == 0xC0
    # The gateway asks again, and the subscriber goes on.
    update = service(10, seconds(600), [seconds(60)], ("Reporting-Reason", 7))
    answer = gateway.ask(ccr("f1", 2, 1, update, account=account))
    assert answer.services[0][GSU] == seconds(600)
    assert "Final-Unit-Indication" not in answer.services[0]
    assert bridge.measure("sessions_at_final_units") == 0
    assert bridge.credited(account) == 0
    until(lambda: bridge.measure('reauth_total{result="2001"}') == 1, "the answer to it")
    line = bridge.line(what="RAR")
    assert (line["account"], line["code"], line["who"]) == (account, "2001", "gw.example")


def test_several_groups_and_sessions(office: Office, bridge: Bridge, gateway: Gateway) -> None:
    account = office.account("49601", 600_000)
    both = [service(10, seconds(120)), service(20, octets(10**9))]
    gateway.ask(ccr("g1", 1, 0, *both, account=account))
    # The other's share is denied for want of money.
    more = gateway.ask(ccr("g1", 2, 1, service(10, seconds(600)), service(30, []), account=account))
    assert [each["Result-Code"] for each in more.services] == [2001, 4012]
    gateway.ask(ccr("g2", 1, 0, service(20, octets(10**9)), account=account))
    told = bridge.credited(account)
    asked = gateway.asked(RAR, told)
    assert len(asked) == told >= 1
    [one] = [each for each in asked if each.get("Session-Id") == "g1"]
    assert one.get("Rating-Group") is None
    # A service that is reported without wanting more leaves the others as they are.
    gateway.ask(ccr("g1", 2, 2, service(30, None, [events(0)]), account=account))
    assert bridge.credited(account) >= 1
    gateway.ask(ccr("g1", 3, 3, account=account))
    gateway.ask(ccr("g2", 3, 1, account=account))
    assert bridge.credited(account) == 0


def test_sessions_that_arent_at_a_final_unit(
    office: Office, bridge: Bridge, gateway: Gateway
) -> None:
    account = office.account("49602", 10**9)
    gateway.ask(ccr("n1", 1, 0, service(10, seconds(60)), account=account))
    debit = [("Requested-Action", 0), service(30, events(10**6))]
    gateway.ask(ccr("n2", 4, 0, *debit, account=account))
    poor = office.account("49603")
    gateway.ask(ccr("n3", 1, 0, service(10, []), account=poor))
    assert [bridge.credited(each) for each in (account, poor, "1")] == [0, 0, 0]


@pytest.mark.parametrize("code, is_kept", [(2002, True), (5002, False), (None, True)])
def test_answers_of_the_gateway(
    office: Office, bridge: Bridge, gateway: Gateway, code: int | None, is_kept: bool
) -> None:
    account = office.account(f"4961{code or 0}", 300_000)
    session = f"a{code}"
    gateway.ask(ccr(session, 1, 0, service(10, seconds(600)), account=account))
    if code is None:
        del gateway.answers[RAR]
    else:
        gateway.answers[RAR] = code
    name = f'reauth_total{{result="{code or "timeout"}"}}'
    before = bridge.measure(name)
    assert bridge.credited(account) == 1
    until(lambda: bridge.measure(name) == before + 1, name)
    assert bridge.credited(account) == is_kept


def test_the_gateway_has_another_connection(office: Office, bridge: Bridge) -> None:
    account = office.account("49604", 300_000)
    old = Gateway(bridge.port, "pgw.example")
    asked = ccr("pgw1", 1, 0, service(10, seconds(600)), account=account, host="pgw.example")
    old.ask(asked)
    old.close()
    until(lambda: bridge.measure('peer_connections{peer="pgw.example"}') == 0, "the old one's end")
    assert bridge.credited(account) == 1
    until(lambda: bridge.measure('reauth_total{result="no_connection"}') == 1, "no connection")
    new = Gateway(bridge.port, "pgw.example")
    # The bridge has the connection a moment after the gateway has.
    until(lambda: bridge.measure('peer_connections{peer="pgw.example"}') == 1, "the new one")
    until(lambda: bridge.credited(account) == 1 and new.asked(RAR, seconds=1), "the request")
    new.close()


def test_a_credit_while_the_office_is_asked(starts: Any, stub: Stub) -> None:
    """What came while a request was under way is told behind its answer."""
    asked, credited = threading.Event(), threading.Event()

    def final(body: dict[str, Any]) -> tuple[int, Any]:
        asked.set()
        credited.wait(PATIENCE)
        granted = {"Rating-Group": 10, "Result-Code": 2001, GSU: {"CC-Time": 5}}
        more = {"Validity-Time": 60, "Final-Unit-Indication": {"Final-Unit-Action": 0}}
        return 200, good(body)[1] | {"Multiple-Services-Credit-Control": [granted | more]}

    stub.plan = final
    bridge = starts(stub.port)
    gateway = Gateway(bridge.port)
    hop = gateway.begin(ccr("race", 1, 0, service(10, seconds(60))))
    assert asked.wait(PATIENCE)
    assert bridge.credited("49151") == 0
    credited.set()
    answer = gateway.wait(hop)
    assert answer and answer.result == 2001
    assert len(gateway.asked(RAR)) == 1
    gateway.close()


def test_what_is_remembered_is_bounded(starts: Any, office: Office) -> None:
    bridge = starts(office.doors["gateways"], sessions_at_final_units="3")
    gateway = Gateway(bridge.port)
    account = office.account("49605", 60_000)
    for at in range(6):
        gateway.ask(ccr(f"many{at}", 1, 0, service(20, octets(10**9)), account=account))
    assert bridge.measure("sessions_at_final_units") == 3
    assert bridge.measure('reauth_total{result="forgotten"}') == 3
    gateway.close()


HOSTS = '["ocs.example", "ocs2.example"]'


@pytest.fixture(scope="module")
def both(office: Office, starts: Any) -> tuple[Bridge, Bridge]:
    """Two bridges over one office, which name each other."""
    port = office.doors["gateways"]
    return starts(port, hosts=HOSTS), starts(port, hosts=HOSTS, origin_host='"ocs2.example"')


def without_origin(answer: Message) -> list[Any]:
    """An answer's AVPs without who answered."""
    return [each for each in answer.avps if each[0] != "Origin-Host"]


@pytest.mark.parametrize("at", range(10))
def test_a_session_that_changes_its_bridge(
    office: Office, both: tuple[Bridge, Bridge], at: int
) -> None:
    gateways = [Gateway(each.port) for each in both]
    account = office.account(f"4984{at}", 10**6)
    to, part = ("Destination-Host", "ocs.example"), service(10, seconds(60), [seconds(60)])
    asked = [ccr(f"two{at}", 1, 0, to, service(10, seconds(60)), account=account)]
    asked += [ccr(f"two{at}", 2, number, to, part, account=account) for number in (1, 2, 3)]
    asked.append(ccr(f"two{at}", 3, 4, service(10, None, [seconds(60)]), account=account))
    first = [gateways[n % 2].ask(each) for n, each in enumerate(asked)]
    again = [gateways[(n + 1) % 2].ask(each, is_again=True) for n, each in enumerate(asked)]
    assert [each.result for each in first] == [2001] * 5
    assert list(map(without_origin, first)) == list(map(without_origin, again))
    assert {each.get("Origin-Host") for each in first} == {"ocs.example", "ocs2.example"}
    assert office.sums(account) == (10**6, 600_000, 0, 400_000)
    for gateway in gateways:
        gateway.close()


def test_a_bridge_is_killed_under_its_gateways(office: Office, both: tuple[Bridge, Bridge]) -> None:
    """Gateways fail over with what had no answer, to the other bridge; each use is charged once."""
    accounts = [office.account(f"4983{at}", 10**9) for at in range(20)]
    here, there = (Gateway(each.port) for each in both)
    for at, account in enumerate(accounts):
        opened = ccr(f"fail{at}", 1, 0, service(10, seconds(60)), account=account)
        assert here.ask(opened).result == 2001
    part = service(10, seconds(60), [seconds(60)])
    asked = [ccr(f"fail{at}", 2, 1, part, account=each) for at, each in enumerate(accounts)]
    hops = [here.begin(each) for each in asked]
    time.sleep(0.005)
    both[0].stop(signal.SIGKILL)
    told = [here.wait(hop) for hop in hops]
    for request, answer in zip(asked, told):
        if answer is None or answer.result in (3002, 3004):
            assert there.ask(request, is_again=True).result == 2001
    assert [office.sums(account)[3] for account in accounts] == [100_000] * 20
    both[0].start()
    here = Gateway(both[0].port)
    ends = [service(10, None, [seconds(60)])] * 20
    for at, (account, end) in enumerate(zip(accounts, ends)):
        gateway = (here, there)[at % 2]
        assert gateway.ask(ccr(f"fail{at}", 3, 2, end, account=account)).result == 2001
    assert [office.sums(account)[1:] for account in accounts] == [
        (10**9 - 200_000, 0, 200_000)
    ] * 20
    here.close()
    there.close()
