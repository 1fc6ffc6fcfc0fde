"""The bridge's messages as tshark takes them apart, a reader that nobody here wrote: each is whole, and
says what the tests' own gateway reads."""
from __future__ import annotations

import itertools
from collections.abc import Iterator
from typing import Any

import pytest
from diameter.bridge import MONDAY_10, Bridge, Office
from diameter.capture import Capture, is_request, shown
from diameter.test_mapping import (
    EVENTS,
    FAULTS,
    HEADS,
    PROXIED,
    REQUIRED,
    SUBSCRIBERS,
    USED,
    WANTED,
    acting,
)
from diameter.wire import (
    CCR,
    DPR,
    DWR,
    RAR,
    REQUEST,
    Avp,
    Gateway,
    Request,
    ccr,
    events,
    money,
    octets,
    seconds,
    service,
    subscriber,
)

RICH, POOR = "49151", "49152"
NAMES = itertools.count(1)


def opened(*avps: Avp, **more: Any) -> Request:
    """An initial request of a session of its own."""
    return ccr(f"frames;{next(NAMES)}", 1, 0, *avps, **more)


def acted(*avps: Avp) -> Request:
    """An event."""
    return ccr(f"frames;{next(NAMES)}", 4, 0, *avps)


def session(group: int, used: list[list[Avp]]) -> Iterator[Request]:
    """Three requests of a session that reports this use."""
    name, part = f"frames;{next(NAMES)}", service(group, [], used)
    yield ccr(name, 1, 0, service(group, []))
    yield ccr(name, 2, 1, part)
    yield ccr(name, 3, 2, service(group, None, used))


def requests() -> Iterator[Request]:
    """Requests of the mapping's tests, and one for each kind of answer besides."""
    for group, wanted, _ in WANTED.values():
        yield opened(service(group, wanted))
    for group, used, _ in USED.values():
        yield from session(group, used)
    for avps, _, _ in FAULTS.values():
        yield opened(*avps)
    for avps, to in PROXIED.values():
        proxy: Avp = ("Proxy-Info", [("Proxy-Host", "p.example"), ("Proxy-State", b"123")])
        yield opened(proxy, *avps, to=to)
    for pairs, code in SUBSCRIBERS.values():
        # One that isn't taken goes back as it came, bytes of no kind among them.
        if code == 2001:
            yield opened(service(10, []), subscription=[subscriber(*pair) for pair in pairs])
    for changed, _ in HEADS.values():
        code, application, head, flags = opened(service(10, []))
        told: list[Avp] = [(each[0], changed.get(each[0], each[1])) for each in head]
        yield code, application, told, flags
    for name in REQUIRED:
        code, application, head, flags = opened(service(10, []))
        yield code, application, [each for each in head if each[0] != name], flags
    for avps, _, _ in EVENTS.values():
        yield acted(*avps)
    yield acted(acting(0), service(30, events(2)))
    yield acted(acting(1), ("Requested-Service-Unit", money(5, -1)))
    yield acted(acting(2), service(30, events(9)))
    yield acted(acting(3), service(30, events(3)))
    # Final units: the end of the service, and a redirect.
    yield ccr("poor;1", 1, 0, service(10, seconds(600)), account=POOR)
    yield ccr("poor;2", 1, 0, service(20, octets(1000 * 2**20)), account=POOR)
    yield opened(service(10, [], (), ("Service-Identifier", 7)))
    yield opened(account="4939999")
    yield opened()


class Tour:
    """What a gateway was answered, and the capture of it."""

    def __init__(self, bridge: Bridge, capture: Capture) -> None:
        self.bridge, self.capture = bridge, capture
        self.results: dict[str, str] = {}
        self.asked = 0

    def made(self) -> Tour:
        """Asks all, in a capture that is whole afterwards."""
        gateway = Gateway(self.bridge.port)
        for request in requests():
            answer = gateway.ask(request)
            self.results[f"0x{answer.hop:08x}"] = str(answer.result)
        assert self.bridge.credited(POOR) == 2
        self.asked = len(gateway.asked(RAR, 2))
        own = gateway.origin()
        bye: list[Avp] = [*own, ("Disconnect-Cause", 0)]
        for code, avps in ((DWR, own), (DPR, bye)):
            answer = gateway.ask((code, 0, avps, REQUEST))
            assert answer.result == 2001
        gateway.close()
        self.capture.has(answer.raw)
        self.capture.stop()
        return self


@pytest.fixture(scope="module")
def tour(tmp_path_factory: pytest.TempPathFactory, starts: Any) -> Iterator[Tour]:
    """All that is asked, ten minutes before a change of the price."""
    place = tmp_path_factory.mktemp("frames")
    office = Office(place / "office", MONDAY_10 + 35400)
    hints = "#{10 => #{holding_time => 300, threshold => 60}, 20 => #{threshold => 1000}}"
    try:
        bridge = starts(office.up().doors["gateways"], hints=hints)
        capture = Capture(place / "frames.pcapng", [bridge.port])
        try:
            office.account(RICH, 10**12)
            office.account(POOR, 300_000)
            yield Tour(bridge, capture.start()).made()
        finally:
            capture.stop()
    finally:
        office.end()


def test_no_frame_of_the_bridge_is_malformed(tour: Tour) -> None:
    faults = [row for row in tour.capture.faults() if row[1] == str(tour.bridge.port)]
    print(f"{tour.capture.count()} frames of Diameter, {len(faults)} of the bridge malformed")
    assert tour.capture.count() > 2 * len(tour.results) > 200 and not faults


# What the answers and the bridge's own requests of the tour have to show; see rfc8506.dia.
SHOWN = """Session-Id Result-Code Origin-Host Origin-Realm Auth-Application-Id CC-Request-Type
CC-Request-Number CC-Session-Failover Multiple-Services-Credit-Control Granted-Service-Unit
Cost-Information Unit-Value Value-Digits Exponent Currency-Code Final-Unit-Indication
Final-Unit-Action Redirect-Server Redirect-Address-Type Redirect-Server-Address
Check-Balance-Result Credit-Control-Failure-Handling Validity-Time Origin-State-Id Proxy-Info
Proxy-Host Proxy-State Failed-AVP Rating-Group Service-Identifier CC-Time CC-Total-Octets
CC-Service-Specific-Units Tariff-Time-Change Quota-Holding-Time Time-Quota-Threshold
Volume-Quota-Threshold Re-Auth-Request-Type Destination-Host Destination-Realm Product-Name
Vendor-Id Host-IP-Address Supported-Vendor-Id""".split()


def test_tshark_reads_what_the_gateway_reads(tour: Tour) -> None:
    """The same Result-Code of each answer, every AVP that the bridge writes, and its own requests."""
    results: dict[str, str] = {}
    names, own = set[str](), 0
    for _, _, one in tour.capture.messages():
        is_asked, code = is_request(one), shown(one, "diameter.cmd.code")
        if code == str(CCR) and not is_asked:
            results[shown(one, "diameter.hopbyhopid")] = shown(one, "diameter.Result-Code")
        own += is_asked and code == str(RAR)
        if is_asked == (code == str(RAR)):
            names |= {str(each.get("name")).removeprefix("diameter.") for each in one.iter("field")}
    assert results == tour.results
    assert own == tour.asked == 2
    assert [name for name in SHOWN if name not in names] == []
