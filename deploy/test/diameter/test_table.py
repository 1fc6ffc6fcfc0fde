"""The table of AVPs: it is the grammars', the page's, and what the bridge does with each AVP."""
from __future__ import annotations

import itertools
import json
import re
from collections.abc import Iterable, Iterator
from typing import Any

import pytest
from diameter.bridge import SOURCE, Bridge, Office
from diameter.test_frames import requests
from diameter.wire import AVPS, Avp, Gateway, ccr, money, seconds, service

TABLE = json.loads((SOURCE / "mapping.json").read_text())
ROWS = [(row["place"], name, row["rule"]) for row in TABLE for name in row["avps"]]
PLACES = {
    "command": "CCR",
    "service": "Multiple-Services-Credit-Control",
    "requested": "Requested-Service-Unit",
    "used": "Used-Service-Unit",
}
NUMBERS = itertools.count(1)
# Rows that the bridge or the office reads are tried by test_mapping; the others here, one by one.
READ = {"pass", "bridge"}
# A value that fits each kind of AVP.
VALUES: dict[str, Any] = {"u32": 1, "u64": 5, "text": "x", "bytes": b"x", "group": []}


@pytest.fixture(scope="module")
def gateway(office: Office, bridge: Bridge) -> Iterator[Gateway]:
    """A gateway, and an account that can pay for every row."""
    office.account("49151", 10**12)
    one = Gateway(bridge.port)
    yield one
    one.close()


def test_no_avp_is_decided_about_twice() -> None:
    assert len({(place, name) for place, name, _ in ROWS}) == len(ROWS) > 100
    assert {rule for _, _, rule in ROWS} == {"pass", "bridge", "ignore", "5001"}
    assert all(row["why"] for row in TABLE)


@pytest.mark.parametrize("place", PLACES)
def test_the_grammars_have_the_avps_of_the_table(place: str) -> None:
    text = (SOURCE / "src/rfc8506.dia").read_text()
    found = re.search(rf"^{PLACES[place]} ::= <[^>]*>(.*?)^$", text, re.M | re.S)
    assert found
    names = set(re.findall(r"[<{\[] ([\w-]+) [>}\]]", found[1])) - {"AVP"}
    assert names == {name for where, name, _ in ROWS if where == place}


def test_the_page_has_the_table() -> None:
    lines = (SOURCE / "README.md").read_text().splitlines()
    page = [line for line in lines if line.startswith(tuple(f"| {place} |" for place in PLACES))]
    assert page == [
        f"| {row['place']} | {', '.join(row['avps'])} | {row['rule']} | {row['why']} |"
        for row in TABLE
    ]


# A service's grammar is that of answers too, so these groups are decoded, and read by nobody.
ANSWERED: dict[str, list[Avp]] = {
    "Granted-Service-Unit": seconds(5),
    "Final-Unit-Indication": [("Final-Unit-Action", 0)],
}


def sent(name: str) -> Avp:
    """An AVP of this name with a value that fits."""
    if name == "CC-Money":
        return money(5, 0)[0]
    if name in ANSWERED:
        return (name, ANSWERED[name])
    return (name, VALUES[AVPS[name][2]])


def asked(place: str, one: Avp) -> list[Avp]:
    """The AVPs of a request that has this AVP at this place."""
    if place == "command":
        return [one, service(10, seconds(60))]
    if place == "service":
        return [service(10, seconds(60), (), one)]
    if place == "requested":
        return [service(10, [*seconds(60), one])]
    return [service(10, seconds(60), [[*seconds(60), one]])]


def prices(office: Office, gateway: Gateway, place: str, more: Avp | None) -> tuple[Any, int]:
    """The Result-Code of such a request, and what it moved of the account's money."""
    name = f"table;{next(NUMBERS)}"
    kind = 1
    if place == "used":
        kind = 2
        gateway.ask(ccr(name, 1, 0, service(10, seconds(60))))
    before = office.sums("49151")
    avps = asked(place, more) if more else asked(place, ("Route-Record", "x"))
    if more is None and place != "command":
        avps = [service(10, seconds(60), [seconds(60)] if place == "used" else [])]
    answer = gateway.ask(ccr(name, kind, 1, *avps))
    after = office.sums("49151")
    return answer.result, before[1] - after[1]


UNREAD = [row for row in ROWS if row[2] == "ignore"]
REFUSED = [row for row in ROWS if row[2] == "5001"]


@pytest.mark.parametrize("place, name, _", UNREAD, ids=lambda part: str(part))
def test_an_ignored_avp_changes_nothing(
    office: Office, gateway: Gateway, place: str, name: str, _: str
) -> None:
    without = prices(office, gateway, place, None)
    assert prices(office, gateway, place, sent(name)) == without
    assert without[0] == 2001
    # Whatever is in it.
    code, vendor, kind = AVPS[name]
    strange: Avp = ((code, vendor), b"\xff\xfe\xfd\xfc")
    if kind not in ("u32", "u64") and name not in ANSWERED:
        assert prices(office, gateway, place, strange) == without


@pytest.mark.parametrize("place, name, _", REFUSED, ids=lambda part: str(part))
def test_a_refused_avp_is_shown(
    office: Office, gateway: Gateway, place: str, name: str, _: str
) -> None:
    if place == "used":
        gateway.ask(ccr("refused", 1, 0, service(10, seconds(60))))
    one = sent(name)
    before = office.sums("49151")
    kind = 2 if place == "used" else 1
    answer = gateway.ask(ccr(f"refused;{next(NUMBERS)}", kind, 1, *asked(place, one)))
    assert answer.result == 5001
    shown = answer.failed
    while isinstance(shown, list) and shown and shown[0][0] != name:
        shown = shown[0][1]
    assert shown == [one]
    assert office.sums("49151") == before


def placed(place: str, avps: Iterable[Avp]) -> Iterator[tuple[str, Any]]:
    """The places and names of these AVPs, and of those in their groups that the table has."""
    for name, value, *_ in avps:
        yield place, name
        within = next((each for each, group in PLACES.items() if group == name), None)
        if within:
            yield from placed(within, value)


def test_rows_that_are_read_are_tried_elsewhere() -> None:
    """Each at its place, in the requests of test_mapping."""
    tried = {each for _, _, avps, _ in requests() for each in placed("command", avps)}
    rows = {(place, name) for place, name, rule in ROWS if rule in READ}
    assert rows - tried == set()
