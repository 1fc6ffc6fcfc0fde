"""The mapping over an office with the book of examples: what is asked, charged and answered."""
from __future__ import annotations

import itertools
from collections.abc import Iterator
from typing import Any

import pytest
from diameter.bridge import Bridge, Office
from diameter.wire import (
    Avp,
    Gateway,
    Message,
    ccr,
    events,
    money,
    octets,
    seconds,
    service,
    subscriber,
)

MSCC, RSU, USU = (
    "Multiple-Services-Credit-Control",
    "Requested-Service-Unit",
    "Used-Service-Unit",
)
GSU = "Granted-Service-Unit"
MEBI = 1048576
NUMBERS = itertools.count(1)


@pytest.fixture(scope="module")
def gateway(bridge: Bridge) -> Iterator[Gateway]:
    """A gateway that is connected."""
    one = Gateway(bridge.port)
    yield one
    one.close()


@pytest.fixture
def account(office: Office) -> str:
    """An account of its own with 1,000,000 micro-units."""
    return office.account(f"4930{next(NUMBERS)}", 1_000_000)


@pytest.fixture
def name() -> str:
    """A Session-Id of its own."""
    return f"gw.example;1;{next(NUMBERS)}"


def test_a_session(office: Office, gateway: Gateway, account: str, name: str) -> None:
    ids = [("Service-Identifier", 7), ("Service-Identifier", 8)]
    first = ccr(name, 1, 0, service(10, seconds(600), (), *ids), account=account)
    initial = gateway.ask(first)
    names = ("Session-Id", "CC-Request-Type", "CC-Request-Number", "Auth-Application-Id")
    assert [initial.get(each) for each in names] == [name, 1, 0, 4]
    assert (initial.result, initial.get("Origin-Host"), initial.get("Origin-Realm")) == (
        2001,
        "ocs.example",
        "example",
    )
    assert initial.get("CC-Session-Failover") == 1
    assert initial.get("Credit-Control-Failure-Handling") == 2
    assert initial.flags == 0x40 and initial.hop == initial.end
    assert initial.every(MSCC) == [
        [
            (GSU, seconds(600)),
            *ids,
            ("Rating-Group", 10),
            ("Validity-Time", 3600),
            ("Result-Code", 2001),
        ]
    ]
    assert office.sums(account) == (1_000_000, 0, 1_000_000, 0)
    again = gateway.ask(first, is_again=True)
    assert again.raw[20:] == initial.raw[20:]
    update = gateway.ask(
        ccr(name, 2, 1, service(10, seconds(600), [seconds(100)]), account=account)
    )
    assert update.services[0][GSU] == seconds(500)
    assert update.services[0]["Final-Unit-Indication"] == [("Final-Unit-Action", 0)]
    assert update.get("CC-Session-Failover") is None
    assert office.sums(account) == (1_000_000, 0, 800_000, 200_000)
    changed = gateway.ask(
        ccr(name, 2, 1, service(10, seconds(600), [seconds(101)]), account=account)
    )
    assert (changed.result, changed.failed) == (5004, [("CC-Request-Number", 1)])
    cause = ("Termination-Cause", 30)
    end = gateway.ask(ccr(name, 3, 2, service(10, None, [seconds(50)]), cause, account=account))
    assert (end.result, end.services) == (2001, [{"Rating-Group": 10, "Result-Code": 2001}])
    assert office.sums(account) == (1_000_000, 700_000, 0, 300_000)
    over = gateway.ask(ccr(name, 3, 3, service(10, None, [seconds(50)]), account=account))
    assert over.result == 5002


def test_what_the_office_refuses_and_denies(office: Office, gateway: Gateway, name: str) -> None:
    assert gateway.ask(ccr(name, 1, 0, service(10, []), account="4939999")).result == 5030
    rich = office.account("49309999", 10**9)
    assert gateway.ask(ccr(name, 1, 0, service(99, []), account=rich)).result == 5031
    several = [service(10, []), service(99, []), service(30, [])]
    answer = gateway.ask(ccr(name + "b", 1, 0, *several, account=rich))
    told = [(each["Rating-Group"], each["Result-Code"]) for each in answer.services]
    assert told == [(10, 2001), (99, 5031), (30, 2001)]
    assert answer.services[0][GSU] == seconds(600)
    end = gateway.ask(ccr(name + "b", 3, 1, account=rich))
    assert (end.result, end.services) == (2001, [])
    poor = office.account("49309998")
    denied = gateway.ask(ccr(name + "c", 1, 0, service(10, seconds(60)), account=poor))
    assert (denied.result, denied.services) == (4012, [])
    assert denied.get("CC-Session-Failover") is None


def test_a_redirect(office: Office, gateway: Gateway, name: str) -> None:
    number = office.account("49309997", 60_000)
    free = gateway.ask(ccr(name, 1, 0, service(20, octets(MEBI)), account=number))
    assert free.services[0][GSU] == octets(MEBI)
    units = service(20, octets(1000 * MEBI), [octets(MEBI)])
    answer = gateway.ask(ccr(name, 2, 1, units, account=number))
    assert answer.services[0][GSU] == octets(105 * MEBI)
    server = [("Redirect-Address-Type", 2), ("Redirect-Server-Address", "http://topup.example/")]
    assert answer.services[0]["Final-Unit-Indication"] == [
        ("Final-Unit-Action", 1),
        ("Redirect-Server", server),
    ]


ALL_KINDS = [*seconds(120), *octets(999999), ("CC-Input-Octets", 5), ("CC-Output-Octets", 7)]
WAYS: list[Avp] = [("CC-Input-Octets", 60 * MEBI), ("CC-Output-Octets", 50 * MEBI)]
BESIDE = [("CC-Input-Octets", 1), ("CC-Output-Octets", 2)]
USED: dict[str, tuple[int, list[list[Avp]], int]] = {
    "one kind": (10, [seconds(120)], 200_000),
    "all kinds": (10, [[*ALL_KINDS, *events(3)]], 200_000),
    "parts of no tag": (10, [seconds(59), seconds(1), seconds(60)], 200_000),
    "parts of each tag": (
        10,
        [
            [("Tariff-Change-Usage", tag), *seconds(count)]
            for tag, count in ((0, 30), (1, 60), (0, 30), (2, 60))
        ],
        300_000,
    ),
    "a reason beside units": (
        10,
        [[("Reporting-Reason", 2)], [*seconds(61), ("Reporting-Reason", 3)]],
        200_000,
    ),
    "a report of nothing": (10, [seconds(0)], 0),
    "a reason alone": (10, [[("Reporting-Reason", 2)]], 0),
    "events": (30, [[*events(2), *seconds(3)]], 180_000),
    "both ways": (20, [WAYS], 100_000),
    "one way": (20, [[("CC-Output-Octets", 101 * MEBI)]], 10_000),
    "a total beside its ways": (20, [[*octets(102 * MEBI), *BESIDE, *seconds(9)]], 20_000),
}


@pytest.mark.parametrize("case", USED)
def test_used_units(office: Office, gateway: Gateway, account: str, name: str, case: str) -> None:
    group, used, price = USED[case]
    gateway.ask(ccr(name, 1, 0, service(group, []), account=account))
    answer = gateway.ask(ccr(name, 3, 1, service(group, None, used), account=account))
    assert answer.result == 2001
    assert office.sums(account) == (1_000_000, 1_000_000 - price, 0, price)


WANTED: dict[str, tuple[int, list[Avp], list[Avp] | None]] = {
    "one kind": (10, seconds(61), seconds(61)),
    "all kinds": (10, [*seconds(61), *octets(5), *BESIDE, *events(1)], seconds(61)),
    "zeros want the slice": (10, [*seconds(0), *octets(0)], seconds(600)),
    "nothing wants the slice": (10, [], seconds(600)),
    "both ways": (20, [("CC-Input-Octets", 1000), ("CC-Output-Octets", 24)], octets(1024)),
    "the office's greatest number": (20, octets(10**18), octets(1000 * MEBI)),
    "more than that": (20, octets(2**63), None),
    "the most seconds": (10, seconds(2**32 - 1), seconds(3600)),
}


@pytest.mark.parametrize("case", WANTED)
def test_requested_units(office: Office, gateway: Gateway, name: str, case: str) -> None:
    group, wanted, granted = WANTED[case]
    rich = office.account(f"4931{next(NUMBERS)}", 10**15)
    answer = gateway.ask(ccr(name, 1, 0, service(group, wanted), account=rich))
    if granted is None:
        assert (answer.result, answer.failed) == (5004, [(MSCC, [(RSU, wanted)])])
    else:
        assert answer.services[0][GSU] == granted


REPORTS: dict[str, tuple[int, list[list[Avp]], list[Avp] | None]] = {
    "another kind than the group's": (10, [octets(5)], octets(5)),
    "64 bits": (20, [octets(2**64 - 1)], octets(2**64 - 1)),
    "a sum above 64 bits": (20, [octets(2**64 - 1), octets(2**64 - 1)], None),
}


@pytest.mark.parametrize("case", REPORTS)
def test_reports_that_the_office_refuses(
    gateway: Gateway, account: str, name: str, case: str
) -> None:
    group, used, fault = REPORTS[case]
    gateway.ask(ccr(name, 1, 0, service(group, []), account=account))
    answer = gateway.ask(ccr(name, 2, 1, service(group, None, used), account=account))
    assert answer.result == 5004
    assert fault is None or answer.failed == [(MSCC, [(USU, fault)])]
    last = gateway.ask(ccr(name, 2, 2**32 - 1, service(group, []), account=account))
    assert last.get("CC-Request-Number") == 2**32 - 1


def acting(action: int) -> Avp:
    """A Requested-Action."""
    return ("Requested-Action", action)


def test_events(office: Office, gateway: Gateway, account: str, name: str) -> None:
    def ask(more: str, *avps: Avp, is_again: bool = False) -> Message:
        return gateway.ask(ccr(name + more, 4, 0, *avps, account=account), is_again)

    debit = (acting(0), service(30, events(2)))
    first = ask("d", *debit)
    granted = {"Rating-Group": 30, "Result-Code": 2001, GSU: events(2)}
    assert (first.result, first.services) == (2001, [granted])
    assert ask("d", *debit, is_again=True).raw[20:] == first.raw[20:]
    assert office.sums(account) == (1_000_000, 820_000, 0, 180_000)
    assert ask("c", acting(2), service(30, events(9))).get("Check-Balance-Result") == 0
    assert ask("n", acting(2), service(30, events(10))).get("Check-Balance-Result") == 1
    price = [("Unit-Value", [("Value-Digits", 270000), ("Exponent", -6)]), ("Currency-Code", 978)]
    assert ask("p", acting(3), service(30, events(3))).get("Cost-Information") == price
    denied = ask("e", acting(0), service(30, events(10)))
    assert (denied.result, denied.services) == (4012, [])
    assert ask("r", acting(1), (RSU, money(5, -1))).result == 2001
    assert ask("s", acting(1), service(30, money(5, -1))).result == 2001
    assert office.sums(account) == (2_000_000, 1_820_000, 0, 180_000)


def value(name: str, number: int) -> list[Avp]:
    """A Failed-AVP of a refund's value."""
    return [(RSU, [("CC-Money", [("Unit-Value", [(name, number)])])])]


EVENTS: dict[str, tuple[list[Avp], int, Any]] = {
    "dollars": (
        [acting(1), (RSU, money(5, 0, 840))],
        5004,
        [(RSU, [("CC-Money", [("Currency-Code", 840)])])],
    ),
    "no currency": ([acting(1), (RSU, money(5, 0, None))], 5005, [("Currency-Code", 0)]),
    "below a micro-unit": ([acting(1), (RSU, money(5, -7))], 5004, value("Exponent", -7)),
    "minus five": ([acting(1), (RSU, money(-5, 0))], 5004, value("Value-Digits", -5)),
    "a refund in units": ([acting(1), (RSU, seconds(5))], 5005, [("CC-Money", [])]),
    "a refund of nothing": ([acting(1)], 5005, [(RSU, [])]),
    "a refund in two services": (
        [acting(1), service(30, money(5, 0)), service(10, money(5, 0))],
        5009,
        None,
    ),
    "a refund beside a service": ([acting(1), (RSU, money(5, 0)), service(30, [])], 5008, None),
    "no action": ([service(30, [])], 5005, [("Requested-Action", 0)]),
    "an unknown action": ([acting(4), service(30, [])], 5004, [("Requested-Action", 4)]),
    "two services": ([acting(0), service(30, []), service(10, [])], 5004, None),
}


@pytest.mark.parametrize("case", EVENTS)
def test_events_that_are_refused(
    office: Office, gateway: Gateway, account: str, name: str, case: str
) -> None:
    avps, code, failed = EVENTS[case]
    answer = gateway.ask(ccr(name, 4, 0, *avps, account=account))
    assert answer.result == code
    assert failed is None or answer.failed == failed
    assert office.sums(account) == (1_000_000, 1_000_000, 0, 0)


def test_a_door_without_the_right_to_refunds(
    office: Office, starts: Any, account: str, name: str
) -> None:
    gateway = Gateway(starts(office.doors["strict"]).port)
    answer = gateway.ask(ccr(name, 4, 0, acting(1), (RSU, money(5, 0)), account=account))
    assert answer.result == 5003
    assert gateway.ask(ccr(name, 1, 0, service(10, []), account=account)).result == 2001
    gateway.close()


NUMBER = "491701234567"
IMSI, NAI = (1, "262011234567890"), (3, "0262011234567890@nai.epc")
SUBSCRIBERS: dict[str, tuple[list[tuple[int, Any]], int]] = {
    "E.164": ([(0, NUMBER)], 2001),
    "E.164 with a plus": ([(0, "+" + NUMBER)], 2001),
    "an IMSI beside it": ([IMSI, (0, NUMBER)], 2001),
    "all kinds": ([IMSI, NAI, (4, "x"), (2, "sip:other@example"), (0, NUMBER)], 2001),
    "a SIP URI": ([(2, f"sip:+{NUMBER}@ims.example;user=phone")], 2001),
    "a SIP URI with a password": ([(2, f"SIP:{NUMBER}:pw@ims.example:5060")], 2001),
    "a SIP URI with parameters": ([(2, f"sip:+{NUMBER};npdi=yes@ims.example")], 2001),
    "a SIPS URI": ([(2, f"sips:+{NUMBER}@ims.example")], 2001),
    "a TEL URI": ([(2, "tel:+49-170-123(45)67")], 2001),
    "a TEL URI with parameters": ([(2, f"tel:+{NUMBER};isub=1")], 2001),
    "the same twice": ([(0, NUMBER), (0, "+" + NUMBER)], 2001),
    "E.164 before a SIP URI": ([(2, "sip:+4930@ims.example"), (0, NUMBER)], 2001),
    "a broken E.164 beside a SIP URI": ([(0, "4917x"), (2, f"sip:+{NUMBER}@a.example")], 2001),
    "none": ([], 5005),
    "an IMSI alone": ([IMSI], 5004),
    "a NAI alone": ([NAI], 5004),
    "two numbers": ([(0, NUMBER), (0, "491701234568")], 5009),
    "16 digits": ([(0, "1" * 16)], 5004),
    "no digits": ([(0, "")], 5004),
    "letters": ([(0, "49a")], 5004),
    "a SIP name": ([(2, "sip:alice@ims.example")], 5004),
    "a local number": ([(2, "tel:1234;phone-context=+49")], 5004),
    "no UTF-8": ([(0, b"\xff\xfe")], 5004),
    "an unknown kind": ([(17, NUMBER)], 5004),
    "a SIP URI of no UTF-8": ([(2, b"sip:\xff@ims.example")], 5004),
}


@pytest.mark.parametrize("case", SUBSCRIBERS)
def test_subscribers(office: Office, gateway: Gateway, name: str, case: str) -> None:
    pairs, code = SUBSCRIBERS[case]
    office.script.ask("PUT", f"/accounts/{NUMBER}")
    office.script.ask(
        "POST", f"/accounts/{NUMBER}/credits", {"Amount": 10**9, "Reference": "first"}
    )
    ids = [subscriber(*pair) for pair in pairs]
    answer = gateway.ask(ccr(name, 1, 0, service(10, seconds(60)), subscription=ids))
    assert (answer.result, bool(answer.failed)) == (code, code != 2001)


def test_a_session_that_opens_without_a_service(
    office: Office, gateway: Gateway, account: str, name: str
) -> None:
    indicator = ("Multiple-Services-Indicator", 1)
    assert gateway.ask(ccr(name + "x", 1, 0, account="4939999")).result == 5030
    opened = gateway.ask(ccr(name, 1, 0, indicator, account=account))
    assert (opened.result, opened.services, opened.get("CC-Session-Failover")) == (2001, [], 1)
    assert office.sums(account) == (1_000_000, 1_000_000, 0, 0)
    assert gateway.ask(ccr(name, 1, 0, indicator, account=account), is_again=True).result == 2001
    asked = ccr(name, 2, 1, service(10, seconds(120)), account=account)
    first = gateway.ask(asked)
    assert (first.result, first.get("CC-Request-Type")) == (2001, 2)
    assert first.services[0][GSU] == seconds(120)
    assert gateway.ask(asked, is_again=True).raw[20:] == first.raw[20:]
    assert office.sums(account) == (1_000_000, 800_000, 200_000, 0)
    changed = gateway.ask(ccr(name, 2, 1, service(10, seconds(121)), account=account))
    assert (changed.result, changed.failed) == (5004, [("CC-Request-Number", 1)])
    both = [service(10, seconds(60), [seconds(120)]), service(30, [])]
    second = gateway.ask(ccr(name, 2, 2, *both, account=account))
    assert [each["Result-Code"] for each in second.services] == [2001, 2001]
    old = gateway.ask(ccr(name, 2, 2, service(30, []), account=account))
    assert (old.result, old.failed) == (5004, [("CC-Request-Number", 2)])
    end = gateway.ask(ccr(name, 3, 3, service(10, None, [seconds(60)]), account=account))
    assert (end.result, office.sums(account)) == (2001, (1_000_000, 700_000, 0, 300_000))
    assert gateway.ask(ccr(name, 2, 4, service(10, []), account=account)).result == 5002


def test_ends_of_what_used_nothing(gateway: Gateway, account: str, name: str) -> None:
    gateway.ask(ccr(name, 1, 0, account=account))
    assert gateway.ask(ccr(name, 3, 1, account=account)).result == 2001
    nothing = service(10, None, [seconds(0)])
    assert gateway.ask(ccr(name, 3, 1, nothing, account=account)).result == 2001
    used = service(10, seconds(60), [seconds(60)])
    assert gateway.ask(ccr(name + "b", 2, 1, used, account=account)).result == 5002
    used = service(10, None, [seconds(60)])
    assert gateway.ask(ccr(name + "b", 3, 1, used, account=account)).result == 5002
    empty = gateway.ask(ccr(name + "c", 2, 1, account=account))
    assert (empty.result, empty.failed) == (5004, [(MSCC, [])])


REQUIRED = (
    "Session-Id",
    "Origin-Host",
    "Origin-Realm",
    "Destination-Realm",
    "Service-Context-Id",
    "CC-Request-Type",
    "CC-Request-Number",
)
SIXTY = service(10, seconds(60))


@pytest.mark.parametrize("left_out", REQUIRED)
def test_a_required_avp_that_is_left_out(
    gateway: Gateway, account: str, name: str, left_out: str
) -> None:
    code, application, avps, flags = ccr(name, 1, 0, SIXTY, account=account)
    left = [each for each in avps if each[0] != left_out]
    answer = gateway.ask((code, application, left, flags))
    assert (answer.result, answer.failed[0][0]) == (5005, left_out)


PARAMETER = [("Service-Parameter-Type", 1), ("Service-Parameter-Value", b"x")]
FIVE_EUROS = money(5, 0)
UNKNOWN, OF_A_VENDOR = (7777, 0), (7777, 9)
FAULTS: dict[str, tuple[list[Avp], int, Any]] = {
    "money wanted": ([service(10, FIVE_EUROS)], 5001, [(MSCC, [(RSU, FIVE_EUROS)])]),
    "money used": ([service(10, [], [FIVE_EUROS])], 5001, [(MSCC, [(USU, FIVE_EUROS)])]),
    "a tag of a service": (
        [service(10, seconds(60), (), ("Tariff-Change-Usage", 0))],
        5001,
        [(MSCC, [("Tariff-Change-Usage", 0)])],
    ),
    "parameters": ([("Service-Parameter-Info", PARAMETER), SIXTY], 5001, None),
    "a sub-session": ([("CC-Sub-Session-Id", 5), SIXTY], 5001, [("CC-Sub-Session-Id", 5)]),
    "sub-session 0": ([("CC-Sub-Session-Id", 0), SIXTY], 2001, None),
    "units beside services": ([(RSU, seconds(60)), SIXTY], 5008, [(RSU, seconds(60))]),
    "units beside no service": ([(RSU, seconds(60))], 5008, [(RSU, seconds(60))]),
    "use beside no service": ([(USU, seconds(60))], 5008, [(USU, seconds(60))]),
    "an identifier beside no service": ([("Service-Identifier", 5), SIXTY], 2001, None),
    "an unknown AVP with M": ([(UNKNOWN, b"abcd"), SIXTY], 5001, [(UNKNOWN, b"abcd")]),
    "an unknown AVP without M": ([(UNKNOWN, b"abcd", 0), SIXTY], 2001, None),
    "a vendor's AVP with M": ([(OF_A_VENDOR, b"abcd"), SIXTY], 5001, [(OF_A_VENDOR, b"abcd")]),
    "a vendor's AVP without M": ([(OF_A_VENDOR, b"abcd", 0), SIXTY], 2001, None),
    "an unknown AVP in a service": ([service(10, [], (), (UNKNOWN, b"abcd"))], 5001, None),
    "another host": ([("Destination-Host", "other.example"), SIXTY], 3002, None),
    "a host of no UTF-8": ([("Destination-Host", b"\xff.example"), SIXTY], 3002, None),
    "our host": ([("Destination-Host", "OCS.Example"), SIXTY], 2001, None),
    "a group twice": ([SIXTY, SIXTY], 5004, [(MSCC, [("Rating-Group", 10)])]),
    "a service without a group": ([service(None, seconds(60))], 5005, [("Rating-Group", 0)]),
    "a service that wants nothing": ([service(10)], 5005, [(RSU, [])]),
    "use at the beginning": (
        [service(10, seconds(5), [seconds(5)])],
        5004,
        [(MSCC, [(USU, seconds(5))])],
    ),
    "17 services": ([service(group, []) for group in range(17)], 5004, None),
    "twice the type": ([("CC-Request-Type", 1), SIXTY], 5009, None),
}


@pytest.mark.parametrize("case", FAULTS)
def test_faults(gateway: Gateway, account: str, name: str, case: str) -> None:
    avps, code, failed = FAULTS[case]
    answer = gateway.ask(ccr(name, 1, 0, *avps, account=account))
    assert answer.result == code
    assert answer.is_error == (3000 <= code < 4000)
    assert failed is None or answer.failed == failed


@pytest.mark.parametrize("session", [b"s" * 129, b"a b", b"\xc3\xa4", b"\xff", b""])
def test_a_session_id_that_is_none(gateway: Gateway, account: str, session: bytes) -> None:
    code, application, avps, flags = ccr("x", 1, 0, SIXTY, account=account)
    answer = gateway.ask((code, application, [("Session-Id", session), *avps[1:]], flags))
    shown = [("Session-Id", session.decode(errors="surrogateescape"))]
    assert (answer.result, answer.failed, answer.avps[:1]) == (5004, shown, shown)


# RFC 6733 7.1.5 has 5014 for a wrong length; OTP may find the value at fault (5004).
HEADS: dict[str, tuple[dict[str, Any], tuple[int, ...]]] = {
    "another realm": ({"Destination-Realm": "elsewhere"}, (3003,)),
    "a realm of no UTF-8": ({"Destination-Realm": b"\xff"}, (3003,)),
    "another realm of a session of no UTF-8": (
        {"Session-Id": b"\xff", "Destination-Realm": "elsewhere"},
        (3003,),
    ),
    "another application inside": ({"Auth-Application-Id": 5}, (5004,)),
    "an unknown type": ({"CC-Request-Type": 5}, (5004,)),
    "a type of three bytes": ({"CC-Request-Type": b"\0\0\1"}, (5004, 5014)),
    "a number of eight bytes": ({"CC-Request-Number": b"\0" * 8}, (5004, 5014)),
}


@pytest.mark.parametrize("case", HEADS)
def test_heads(gateway: Gateway, account: str, name: str, case: str) -> None:
    changed, codes = HEADS[case]
    command, application, avps, flags = ccr(name, 1, 0, SIXTY, account=account)
    told: list[Avp] = [(each[0], changed.get(each[0], each[1])) for each in avps]
    assert gateway.ask((command, application, told, flags)).result in codes


@pytest.mark.parametrize(
    "command, application, more, code",
    [(999, 4, 0, 3001), (272, 77, 0, 3007), (272, 4, 0x20, 3008)],
)
def test_commands(
    gateway: Gateway, account: str, name: str, command: int, application: int, more: int, code: int
) -> None:
    _, _, avps, flags = ccr(name, 1, 0, SIXTY, account=account)
    answer = gateway.ask((command, application, avps, flags | more))
    assert (answer.result, answer.is_error) == (code, True)


PROXIED: dict[str, tuple[list[Avp], str]] = {
    "2001": ([SIXTY], "example"),
    "5001": ([("CC-Sub-Session-Id", 5), SIXTY], "example"),
    "5004": ([SIXTY, SIXTY], "example"),
    "3003": ([SIXTY], "elsewhere"),
    "5001 by the decoder": ([(UNKNOWN, b"x"), SIXTY], "example"),
}


@pytest.mark.parametrize("case", PROXIED)
def test_proxy_info_goes_back(gateway: Gateway, account: str, name: str, case: str) -> None:
    avps, to = PROXIED[case]
    proxies: list[Avp] = [
        ("Proxy-Info", [("Proxy-Host", f"p{at}.example"), ("Proxy-State", bytes([at] * (at + 1)))])
        for at in range(5)
    ]
    answer = gateway.ask(ccr(name, 1, 0, *proxies, *avps, account=account, to=to))
    assert str(answer.result) == case[:4]
    assert answer.every("Proxy-Info") == [value for _, value in proxies]
