"""The units under systemd, in a copy of this machine (tools/play lines): what they may, what is left after
a kill, whether the clock holds a start up, and what is seen of all of it."""
from __future__ import annotations

import importlib.util
import json
import re
import sys
from collections.abc import Iterator
from importlib.machinery import SourceFileLoader
from typing import Any

import pytest
from support.waiting import until
from support.world import DEPLOY, TOP

pytestmark = pytest.mark.slow

ACCOUNT, DOOR, DESK = "49151", "http://127.0.0.1:8080", "http://127.0.0.1:8081"
MEASURES = "http://127.0.0.1:8404"
JSON = "-H 'Content-Type: application/json'"
# Above what journald takes of a unit without a bound of its own in 30 seconds.
LINES = 64_000
SET_UP = """
useradd --system --home-dir /var/lib/ocs ocs
install -m 755 crates/ocs/out/ocs /usr/local/bin/ocs
install -D -m 644 -t /usr/local/share/ocs/console deploy/console/*
mkdir -p /usr/local/lib/ocs && cp -r deploy/office deploy/bin /usr/local/lib/ocs/
ln -sf /usr/local/lib/ocs/bin/office /usr/local/bin/office
install -d -m 750 -o ocs -g ocs /var/lib/ocs && install -d -m 700 /etc/ocs
install -m 644 deploy/ocs@.service deploy/office-measures.service /etc/systemd/system/
install -D -m 644 deploy/haproxy-office.conf /etc/systemd/system/haproxy.service.d/office.conf
printf '[office]\\nshards = 2\\n' > /etc/ocs/office.toml
for s in 01 02; do runuser -u ocs -- ocs init /var/lib/ocs/$s.db examples/book.toml; done
office doors > /etc/haproxy/haproxy.cfg
systemctl daemon-reload && systemctl restart haproxy
"""
# The last command of a database, and with it all that has a later moment, is put back by 25 hours.
RESTED = """
UPDATE meta SET last_moment = strftime('%s') - 90000;
UPDATE accounts SET as_of = min(as_of, (SELECT last_moment FROM meta));
UPDATE sessions SET touched = min(touched, (SELECT last_moment FROM meta));
UPDATE charges SET moment = min(moment, (SELECT last_moment FROM meta));
"""
# Systemd's sign that the clock was synchronised since the boot.
SIGN = "/run/systemd/timesync/synchronized"


class Machine:
    """A copy of this machine."""

    def __init__(self, made: Any) -> None:
        self.made = made

    def run(self, line: str) -> str:
        """What bash prints for a line; its status has to be 0."""
        ended = self.made.run(line)
        assert ended.returncode == 0, (line, ended.stdout)
        return str(ended.stdout)

    def status(self, line: str) -> int:
        """The exit status of a line."""
        return int(self.made.run(line).returncode)

    def ask(self, method: str, path: str, body: object = None, door: str = DESK) -> str:
        """The answer's body."""
        text = f"-d '{json.dumps(body)}'" if body else "-d ''" if method != "GET" else ""
        return self.run(f"curl -sS --max-time 60 -X {method} {JSON} {text} {door}{path}")

    def property(self, unit: str, name: str) -> str:
        """A property of a unit."""
        return self.run(f"systemctl show --property {name} --value {unit}").strip()

    def is_up(self, shard: str) -> bool:
        """Whether a shard answers through HAProxy."""
        health = f"curl -sS --fail --max-time 5 {MEASURES}/health/{shard}"
        return self.status(f"systemctl is-active ocs@{shard} && {health}") == 0

    def says(self, shard: str, text: str) -> bool:
        """Whether a shard's journal has a text."""
        return self.status(f"journalctl -u ocs@{shard} -o cat | grep -q '{text}'") == 0


@pytest.fixture(scope="module")
def machine() -> Iterator[Machine]:
    """A machine whose clock isn't set yet: its shards are enabled and wait."""
    sys.path.insert(0, str(TOP / "tools/lib"))
    loader = SourceFileLoader("tools_deploy", str(TOP / "tools/lib/deploy"))
    spec = importlib.util.spec_from_loader("tools_deploy", loader)
    assert spec
    tool: Any = importlib.util.module_from_spec(spec)
    loader.exec_module(tool)
    with tool.machine() as made:
        one = Machine(made)
        for line in SET_UP.strip().splitlines():
            one.run(line)
        one.run(f"rm -f {SIGN}")
        one.status("systemctl enable --now ocs@01 ocs@02")
        yield one


def test_a_shard_waits_until_the_clock_is_set(machine: Machine) -> None:
    until(lambda: machine.says("01", "the clock wasn.t synchronised since the boot"), "a refusal")
    assert not machine.is_up("01")
    assert "time-sync.target" in machine.property("ocs@01", "After")
    machine.run(f"mkdir -p $(dirname {SIGN}) && touch {SIGN}")
    until(lambda: machine.is_up("01") and machine.is_up("02"), "the shards")


def test_what_the_units_may(machine: Machine) -> None:
    machine.run("systemctl enable --now office-measures")
    bounds = {"ocs@01": 1.2, "haproxy": 2.8, "office-measures": 2.0}
    for unit, most in bounds.items():
        told = machine.run(f"systemd-analyze security --no-pager {unit} | tail -1")
        found = re.search(r"level for \S+: ([0-9.]+)", told)
        assert found and float(found[1]) <= most, told
    assert machine.property("ocs@01", "UMask") == "0077"
    assert machine.property("ocs@01", "LimitFSIZE") == "infinity"
    assert machine.run("stat -c '%a %U' /var/lib/ocs").split() == ["750", "ocs"]
    assert machine.status("runuser -u nobody -- ls /var/lib/ocs") != 0


def test_the_unit_as_it_is_written_is_at_most_1_2(machine: Machine) -> None:
    machine.run("cp /etc/systemd/system/ocs@.service /run/ocs@01.service")
    asked = "systemd-analyze security --offline=true --no-pager --threshold={} /run/ocs@01.service"
    machine.run(asked.format(12))
    assert machine.status(asked.format(5)) != 0


def test_a_kill_a_stop_and_a_start(machine: Machine) -> None:
    assert "2001" in machine.ask("PUT", f"/accounts/{ACCOUNT}")
    credit = {"Amount": 1000000, "Reference": "c1"}
    path = f"/accounts/{ACCOUNT}/credits"
    first = machine.ask("POST", path, credit)
    shard = (
        "01"
        if machine.status(f"curl -sSi {DESK}/accounts/{ACCOUNT} | grep -i 'shard: 01'") == 0
        else "02"
    )
    before = int(machine.property(f"ocs@{shard}", "MainPID"))
    machine.run(f"systemctl kill -s KILL ocs@{shard}")
    assert machine.ask("POST", path, credit) == first
    assert int(machine.property(f"ocs@{shard}", "MainPID")) not in (0, before)
    assert int(machine.property(f"ocs@{shard}", "NRestarts")) >= 1
    machine.run(f"systemctl stop ocs@{shard}")
    machine.run(f"(sleep 2; systemctl start ocs@{shard}) > /dev/null 2>&1 &")
    assert machine.ask("POST", path, credit) == first
    assert machine.run("find /var/lib/ocs -newer /etc/ocs -name '*.db' ! -user ocs") == ""


def test_what_is_seen_of_a_start(machine: Machine) -> None:
    told = machine.run("office measures --once")
    for name in ("start_seconds", "start_expected_seconds", "restarts"):
        assert len(re.findall(rf"^ocs_shard_{name}\{{shard=\"0[12]\"\}} ", told, re.MULTILINE)) == 2
    shown = machine.run("curl -sS --max-time 20 http://127.0.0.1:8405/metrics")
    assert 'ocs_shard_up{shard="02"} 1.0' in shown
    assert 'ocs_answers_total{caller="operators",code="2001"' in shown
    assert 'ocs_shard_room_bytes{shard="01"}' in shown
    assert re.search(r'ocs_shard_start_seconds\{shard="01"\} [0-9.]+', shown)


def test_the_journal_has_each_line(machine: Machine) -> None:
    begun = machine.run("date +%s.%N").strip()
    asked = f"curl -sS -o /dev/null '{DOOR}/nothing/[1-{LINES // 2}]'"
    machine.run(f"{asked} & {asked} & wait")
    count = f'journalctl -u haproxy -o cat --since @{begun} | grep -c \'"what":"GET ./nothing./\''
    until(lambda: int(machine.run(f"{count} || true")) >= LINES, "each line", 60)
    assert int(machine.run(count)) == LINES


def test_an_account_is_traced_in_the_journal(machine: Machine) -> None:
    told = machine.run(f"office trace {ACCOUNT}").splitlines()
    assert "opening /accounts/49151: accepted (2001)" in told[0]
    assert sum("credit of 1000000 under c1: accepted (2001)" in line for line in told) == 3
    assert machine.status(f"office trace {ACCOUNT} now") == 1
    assert machine.status("office trace 4915") == 1


def test_who_is_turned_away_is_counted_from_the_journal(machine: Machine) -> None:
    name = 'ocs_turned_away_total{door="gateways",why="target"} '
    shown = "curl -sS --max-time 20 http://127.0.0.1:8405/metrics"

    def count() -> float:
        found = re.search(f"{re.escape(name)}(.*)", machine.run(shown))
        return float(found[1]) if found else 0

    before = count()
    assert before >= LINES
    machine.run(f"curl -sS {DOOR}/nothing")
    until(lambda: count() == before + 1, "the count", 20)


def test_a_shard_that_rested_waits_for_a_word(machine: Machine) -> None:
    machine.run("systemctl stop ocs@01")
    machine.run(f'runuser -u ocs -- sqlite3 /var/lib/ocs/01.db "{RESTED}"')
    machine.status("systemctl start ocs@01")
    said = "the clock is 25 hours ahead of its last command"
    until(lambda: machine.says("01", said), "a refusal")
    assert not machine.is_up("01")
    machine.run("office check --start 01 --meant")
    until(lambda: machine.is_up("01"), "the shard")


def test_the_lines_of_the_page(machine: Machine) -> None:
    part = (DEPLOY / "SEEN.md").read_text().partition("## Set up")[2]
    lines = part.partition("```\n")[2].partition("```")[0].splitlines()
    assert len(lines) == 5
    for line in lines:
        machine.run(line)
    for unit in ("haproxy", "office-measures", "prometheus"):
        until(lambda: machine.status(f"systemctl is-active {unit}") == 0, unit)


def test_an_alarm_of_a_shard_that_is_away(machine: Machine) -> None:
    """Prometheus itself, over both exporters."""
    machine.run("systemctl stop ocs@02")
    asked = "curl -sS --max-time 10 http://127.0.0.1:9090/api/v1/alerts || true"

    def states() -> dict[tuple[str, str], str]:
        told = machine.run(asked)
        alerts = json.loads(told)["data"]["alerts"] if told.startswith("{") else []
        return {
            (alert["labels"]["alertname"], alert["labels"].get("shard", "")): alert["state"]
            for alert in alerts
        }

    until(lambda: states().get(("ShardAway", "02")) == "firing", "the alarm", 180)
    assert ("ShardAway", "01") not in states() and ("DoorsAway", "") not in states()
    machine.run("systemctl start ocs@02")
    until(lambda: ("ShardAway", "02") not in states(), "its end", 90)
