"""What is seen of the bridge: a line an answer that the office's reader takes, measures, alarms, its
own port, and the unit's bounds."""
from __future__ import annotations

import json
import os
import pathlib
import re
import subprocess
import urllib.error
import urllib.request
from typing import Any

import pytest
from diameter.bridge import SOURCE, Bridge, Office, Stub
from diameter.wire import Gateway, ccr, octets, seconds, service
from office import log_line
from support.waiting import until
from support.world import ran

SIXTY = service(10, seconds(60))
SEALED = pathlib.Path(__file__).resolve().parent / "sealed.py"


@pytest.fixture(autouse=True, scope="module")
def account(office: Office) -> None:
    """The account that the tests' requests name."""
    office.account("49151", 10**12)


def line_of(bridge: Bridge, session: str) -> dict[str, Any]:
    """The line of a session's only answer."""
    one = bridge.line(session=session)
    read = log_line.read(json.dumps(one))
    assert isinstance(read, log_line.Answered), one
    return one


LINES: dict[str, tuple[list[Any], dict[str, str]]] = {
    "2001": ([SIXTY], {"code": "2001", "service": "2001", "granted": "60", "why": "-"}),
    "octets": ([service(20, octets(5))], {"granted": "5", "type": "1", "number": "0"}),
    "5001": ([("CC-Sub-Session-Id", 5), SIXTY], {"code": "5001", "why": "CC-Sub-Session-Id"}),
    "5001-decoder": ([((7777, 0), b"x"), SIXTY], {"code": "5001", "why": "avps"}),
    "3002": ([("Destination-Host", "x"), SIXTY], {"code": "3002", "why": "Destination-Host"}),
    "5031": ([service(99, [])], {"code": "5031", "account": "49151", "service": "-"}),
}


@pytest.mark.parametrize("case", LINES)
def test_lines(office: Office, bridge: Bridge, case: str) -> None:
    avps, told = LINES[case]
    gateway = Gateway(bridge.port)
    gateway.ask(ccr(f"line-{case}", 1, 0, *avps))
    line = line_of(bridge, f"line-{case}")
    assert {name: line[name] for name in told} == told
    assert (line["door"], line["who"], line["what"]) == ("diameter", "gw.example", "CCR")
    assert line["peer"] == "127.0.0.1:%d" % gateway.connection.getsockname()[1]
    gateway.close()


def test_a_line_names_the_one_of_the_door(office: Office, bridge: Bridge) -> None:
    gateway = Gateway(bridge.port)
    gateway.ask(ccr("joined", 1, 0, SIXTY))
    line = line_of(bridge, "joined")
    door = office.line(line["id"])
    assert (door["session"], door["account"], door["code"]) == ("joined", "49151", "2001")
    gateway.close()


def test_strange_names_stay_texts(bridge: Bridge) -> None:
    host = 'gw".example\\'
    gateway = Gateway(bridge.port, host)
    session = 'x","who":"root'
    gateway.ask(ccr(session, 1, 0, SIXTY, host=host))
    assert line_of(bridge, session)["who"] == host
    assert 'peer="gw\\".example\\\\"' in bridge.get("/metrics")
    gateway.close()


def test_2000_lines_of_2000_answers(bridge: Bridge) -> None:
    gateway = Gateway(bridge.port)
    before = bridge.out.read_text().count("\n")
    hops = [gateway.begin(ccr(f"count{at}", 1, 0, to="x")) for at in range(2000)]
    assert all(gateway.wait(hop) for hop in hops)
    until(lambda: bridge.out.read_text().count("\n") == before + 2000, "all lines")
    assert bridge.measure("lines_dropped_total") == 0
    gateway.close()


def test_an_output_that_ends_costs_no_answer(
    home: pathlib.Path, tmp_path: pathlib.Path, stub: Stub
) -> None:
    bridge = Bridge(home, tmp_path, stub.port)
    os.mkfifo(bridge.out)
    reader = os.open(bridge.out, os.O_RDONLY | os.O_NONBLOCK)
    bridge.start()
    os.close(reader)
    gateway = Gateway(bridge.port)
    told = [gateway.ask(ccr(f"lost{at}", 1, 0, SIXTY)).result for at in range(20)]
    assert told == [2001] * 20
    until(lambda: bridge.measure("lines_dropped_total") > 0, "lines that nobody takes")
    assert "standard output has ended" in bridge.errors.read_text()
    assert gateway.ask(ccr("lost", 1, 0, SIXTY)).result == 2001
    gateway.close()
    assert bridge.stop() == 0


def test_measures(office: Office, starts: Any) -> None:
    bridge = starts(office.doors["gateways"], peers='["gw.example", "away.example"]')
    gateway = Gateway(bridge.port)
    for at in range(5):
        gateway.ask(ccr(f"measured{at}", 1, 0, SIXTY))
    gateway.ask(ccr("measured9", 1, 0, to="x"))
    assert bridge.measure('answers_total{peer="gw.example",code="2001"}') == 5
    assert bridge.measure('answers_total{peer="gw.example",code="3003"}') == 1
    assert bridge.measure('peer_connections{peer="gw.example"}') == 1
    assert bridge.measure('peer_connections{peer="away.example"}') == 0
    assert bridge.measure('answer_seconds_bucket{le="+Inf"}') == 6
    assert bridge.measure("answer_seconds_count") == 6
    assert bridge.measure('office_tries_total{outcome="200"}') == 5
    until(lambda: bridge.measure("in_flight") == 0, "the end of the last request")
    assert bridge.measure("in_flight_limit") == 200
    assert bridge.measure("office_connections_idle") >= 1
    gateway.close()
    until(lambda: bridge.measure('peer_connections{peer="gw.example"}') == 0, "its end")


def test_measures_are_prometheus_text(bridge: Bridge) -> None:
    told = subprocess.run(
        ["promtool", "check", "metrics"],
        input=bridge.get("/metrics"),
        capture_output=True,
        text=True,
    )
    assert told.returncode == 0, told.stdout + told.stderr


# 6,000 strangers come, one by one, and each is answered and goes.
STRANGERS = """ocs_diameter_metrics:init(),
lists:foreach(fun(N) ->
    Name = integer_to_list(N),
    ocs_diameter_metrics:peer(Name, 1),
    ocs_diameter_metrics:answered(Name, 2001, 1),
    ocs_diameter_metrics:peer(Name, -1)
  end, lists:seq(1, 6000)),
Open = [N || {{connections, _}, N} <- ets:tab2list(ocs_diameter_metrics), N /= 0],
io:format("~p ~p", [length(Open), ets:info(ocs_diameter_metrics, size)]), halt()."""


def test_strangers_names_are_bounded(home: pathlib.Path) -> None:
    words: list[Any] = ["erl", "-noinput", "-pa", home / "ebin", "-eval", STRANGERS]
    told = subprocess.run(words, capture_output=True, text=True, check=True).stdout.split()
    assert told[0] == "0" and int(told[1]) < 5010


PORT: dict[str, tuple[str, str, bytes | None, int]] = {
    "health": ("GET", "/health", None, 200),
    "no body": ("POST", "/credited", b"", 400),
    "no JSON": ("POST", "/credited", b"x", 400),
    "no account": ("POST", "/credited", b"{}", 400),
    "a number": ("POST", "/credited", b'{"Account":49151}', 400),
    "a long body": ("POST", "/credited", b"{" + b" " * 5000 + b"}", 413),
    "nobody's account": ("POST", "/credited", b'{"Account":"1"}', 200),
    "another method": ("GET", "/credited", None, 405),
    "another path": ("GET", "/etc/passwd", None, 404),
    "a path above": ("GET", "/../../etc/passwd", None, 404),
}


@pytest.mark.parametrize("case", PORT)
def test_its_own_port(bridge: Bridge, case: str) -> None:
    method, path, body, status = PORT[case]
    address = f"http://127.0.0.1:{bridge.watch}{path}"
    request = urllib.request.Request(address, body, method=method)
    try:
        with urllib.request.urlopen(request, timeout=60) as answer:
            told = answer.status
    except urllib.error.HTTPError as fault:
        told = fault.code
    assert told == status


def test_alarms() -> None:
    told = ran("promtool", "test", "rules", "alarms-test.yml", cwd=SOURCE)
    assert told.returncode == 0, told.stdout + told.stderr
    named = set(re.findall(r"ocs_diameter_(\w+)", (SOURCE / "alarms.yml").read_text()))
    written = (SOURCE / "src/ocs_diameter_metrics.erl").read_text()
    assert [name for name in named if name.removesuffix("_bucket") not in written] == []


def test_the_page_names_every_measure() -> None:
    written = (SOURCE / "src/ocs_diameter_metrics.erl").read_text()
    names = re.findall(r'(?:counter|gauge)\("(\w+)"', written) + ["answer_seconds"]
    page = (SOURCE / "README.md").read_text()
    assert [name for name in names if f"`{name}`" not in page] == []


def test_the_unit_is_strict() -> None:
    words = ["systemd-analyze", "security", "--offline=yes", "--no-pager", "--threshold=12"]
    told = ran(*words, SOURCE / "ocs-diameter.service")
    assert told.returncode == 0, told.stdout[-2000:] + told.stderr


def test_it_runs_within_the_units_bounds(home: Any, tmp_path: Any, stub: Stub) -> None:
    """With the unit's filter of system calls and without memory that can be written and executed."""
    bridge = Bridge(home, tmp_path, stub.port)
    bridge.start("/usr/bin/python3", SEALED, SOURCE / "ocs-diameter.service")
    gateway = Gateway(bridge.port)
    assert gateway.ask(ccr("sealed", 1, 0, SIXTY)).result == 2001
    assert bridge.get("/health") == "{}"
    gateway.close()
    assert bridge.stop() == 0


def test_the_man_page() -> None:
    told = ran("mandoc", "-T", "lint", "-W", "warning", SOURCE / "ocs-diameter.8")
    assert told.returncode == 0, told.stdout
