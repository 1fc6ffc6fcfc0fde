"""Bars by the agent under systemd: what it answers, and what a kill leaves (in a copy of this machine)."""
from __future__ import annotations

import json
import re
from collections.abc import Iterator
from typing import Any

import pytest

from month.machine import wait_until
from month.stand import Stand, now, stand

DESK = "http://127.0.0.1:8081"
JSON = "-H 'Content-Type: application/json'"
ACCOUNTS = ("49151", "49152", "49153")
# The program stands still at the step that /run/mode says, so that the agent is killed there.
SLOW = """#!/bin/sh
step="$(cat /run/mode)-$1"
case $step in
    stopped-bar) touch /run/there; sleep 61 ;;
    starts-serve) sleep 9 ;;
    done-bar) /usr/local/bin/ocs-kept "$@"; touch /run/there; sleep 61 ;;
esac
exec /usr/local/bin/ocs-kept "$@"
"""
# Each step with how it is seen to be reached, and whether the account is barred afterwards.
STEPS = {
    "asks": ("49161", "grep -q bar/49161.*begins /run/lines", False),
    "stopped": ("49162", "test -e /run/there", False),
    "done": ("49163", "test -e /run/there", True),
    "starts": ("49164", "pgrep -x sleep", True),
}
SLOWER = ("asks", "starts")


class Desk:
    """An operator at the door of this machine, and the agent's unit."""

    def __init__(self, office: Stand) -> None:
        self.office = office

    def ask(self, method: str, path: str) -> tuple[int, dict[str, Any]]:
        """The status and the body of the agent's answer."""
        text = "-d ''" if method == "POST" else ""
        asked = f"curl -sS --max-time 120 -w ' %{{http_code}}' -X {method} {JSON} {text}"
        told = self.office.run(f"{asked} {DESK}/office/agent{path}")
        body, _, status = told.rpartition(" ")
        return int(status), json.loads(body)

    def lines(self) -> list[dict[str, Any]]:
        """The agent's lines in the journal."""
        told = self.office.run("journalctl -u office-agent -o cat --no-pager")
        return [json.loads(line) for line in told.splitlines() if line.startswith("{")]

    def kill(self) -> None:
        """Kills the agent by -9; systemd starts it again."""
        self.office.run("systemctl kill --kill-whom=main -s KILL office-agent")


@pytest.fixture(scope="module", name="desk")
def made() -> Iterator[Desk]:
    with stand() as office:
        office.run("install -m 644 deploy/office-agent.* /etc/systemd/system/")
        office.run("systemctl daemon-reload && systemctl enable --now office-agent.socket")
        for account in ACCOUNTS:
            office.open(account, 1_000_000)
        yield Desk(office)


def test_a_stolen_sim_is_barred_by_one_request(desk: Desk) -> None:
    home = desk.office.home("49151")
    status, told = desk.ask("POST", "/bar/49151")
    assert status == 200 and told.pop("waited") > 0 and told.pop("as_of") > 0
    wanted = {"account": "49151", "shard": home, "barred": True, "changed": True}
    assert told == wanted | {"Result-Code": 2001}
    assert desk.office.ask("GET", "/accounts/49151")["Barred"] is True
    assert desk.office.debit("49151", "barred")["Result-Code"] == 4010
    assert desk.office.is_up(home)


def test_who_barred_is_in_both_logs(desk: Desk) -> None:
    begins, ends = [one for one in desk.lines() if one["what"].endswith("/bar/49151")][:2]
    assert (begins["who"], begins["begins"]) == ("operators", True)
    assert (ends["id"], ends["status"], ends["changed"]) == (begins["id"], 200, True)
    journal = "journalctl --no-pager -t office"
    told = "bar 49151 in shard .* by operators by the agent"
    wait_until(lambda: bool(re.search(told, desk.office.run(journal))), "the line of the bar")
    said = r"operators at operators: bar: accepted \(2001\)"
    trace = "office trace 49151"
    wait_until(lambda: bool(re.search(said, desk.office.run(trace))), "the line of the doors")


def test_the_account_says_so(desk: Desk) -> None:
    told = desk.ask("GET", "/account/49151")[1]
    assert told["barred"] is True
    assert "denied, the account is barred (4010)" in "".join(
        line["sentence"] for line in told["lines"]
    )


def test_the_same_again_stops_nothing(desk: Desk) -> None:
    home = desk.office.home("49151")
    process = desk.office.run(f"systemctl show --property MainPID ocs@{home}")
    status, told = desk.ask("POST", "/bar/49151")
    assert (status, told["changed"], told["waited"], told["barred"]) == (200, False, 0, True)
    assert desk.office.run(f"systemctl show --property MainPID ocs@{home}") == process


def test_a_bar_is_lifted(desk: Desk) -> None:
    status, told = desk.ask("POST", "/unbar/49151")
    assert (status, told["changed"], told["barred"]) == (200, True, False)
    assert desk.office.debit("49151", "free")["Result-Code"] == 2001


def test_an_unknown_account_stops_nothing(desk: Desk) -> None:
    status, told = desk.ask("POST", "/bar/770000")
    assert (status, told["Refusal"]) == (200, "O2")


def test_two_at_once_have_the_shard_one_after_the_other(desk: Desk) -> None:
    line = f"curl -sS --max-time 120 -X POST {JSON} -d '' {DESK}/office/agent/bar/49152"
    both = [desk.office.machine.started(line) for _ in range(3)]
    told = [json.loads(each.communicate(timeout=180)[0]) for each in both]
    assert all(each["barred"] is True for each in told)
    assert desk.office.is_up(desk.office.home("49152"))


@pytest.fixture(name="slow")
def slowed(desk: Desk) -> Iterator[None]:
    """The program stands still where it is told to."""
    desk.office.run("mv /usr/local/bin/ocs /usr/local/bin/ocs-kept; echo none > /run/mode")
    desk.office.machine.write("/usr/local/bin/ocs", SLOW)
    desk.office.run("chmod 755 /usr/local/bin/ocs; rm -f /run/there")
    yield
    desk.office.run("mv /usr/local/bin/ocs-kept /usr/local/bin/ocs")


@pytest.mark.parametrize(
    "step", [pytest.param(one, marks=[pytest.mark.slow] if one in SLOWER else []) for one in STEPS]
)
def test_a_kill_at_a_step_leaves_the_shard_up(desk: Desk, slow: None, step: str) -> None:
    office, (account, there, is_barred) = desk.office, STEPS[step]
    office.open(account)
    home = office.home(account)
    office.run(f"echo {step} > /run/mode")
    if step == "asks":
        office.run(f"systemctl kill -s STOP ocs@{home}")
        there = f"journalctl -u office-agent -o cat --no-pager > /run/lines; {there}"
    asked = office.machine.started(
        f"curl -sS --max-time 120 -o /dev/null -w '%{{http_code}}' -X POST {JSON} -d '' "
        f"{DESK}/office/agent/bar/{account}"
    )
    wait_until(lambda: office.machine.run(there, None).returncode == 0, f"the step {step}")
    desk.kill()
    office.run(f"echo none > /run/mode; systemctl kill -s CONT ocs@{home}", None)
    assert asked.communicate(timeout=120)[0] == "502"
    wait_until(lambda: office.is_up(home), "the start")
    assert office.ask("GET", f"/accounts/{account}")["Barred"] is is_barred
    status, told = desk.ask("POST", f"/bar/{account}")
    assert status == 200, told
    assert (told["barred"], told["changed"]) == (True, not is_barred)
    units = "systemctl --no-pager list-units"
    wait_until(lambda: "office-guard" not in office.run(units), "no guard")


def test_a_stop_lets_a_bar_end(desk: Desk) -> None:
    line = f"curl -sS --max-time 120 -X POST {JSON} -d '' {DESK}/office/agent/unbar/49153"
    asked = desk.office.machine.started(line)
    count = 'journalctl -u office-agent -o cat | grep -c "unbar/49153.*begins"'
    wait_until(lambda: desk.office.run(count, None).strip() == "1", "its beginning")
    desk.office.run("systemctl stop office-agent")
    assert json.loads(asked.communicate(timeout=120)[0])["barred"] is False
    assert desk.office.ask("GET", "/accounts/49153")["Barred"] is False
    assert desk.office.is_up(desk.office.home("49153"))


def test_what_its_unit_may(desk: Desk) -> None:
    told = desk.office.run("systemd-analyze security --no-pager office-agent | tail -1")
    found = re.search(r"level for \S+: ([0-9.]+)", told)
    assert found and float(found[1]) <= 2.4, told
    assert desk.office.run("stat -c '%a %G' /run/ocs-agent/socket").split() == ["660", "haproxy"]
    ask = (
        "curl -sS --max-time 5 --unix-socket /run/ocs-agent/socket http://agent/office/agent/shards"
    )
    desk.office.run(f"runuser -u nobody -- {ask}", 7)


def test_each_route_answers_under_its_unit(desk: Desk) -> None:
    """What the unit may is enough for all of them."""
    office = desk.office
    office.run("office clearing --write; office import examples/vouchers.csv")
    for path in ("/books", "/sums?month=202601", "/account/49151"):
        assert desk.ask("GET", path)[0] == 200
    status, told = desk.ask("GET", "/shards")
    assert [one["unit"] for one in told["shards"]] == ["active"] * 4
    assert all(one["answers"] and one["waiting"] == 0 for one in told["shards"])
    asked = f"curl -sS --max-time 120 -w ' %{{http_code}}' {DESK}/office/agent"
    typed = "-H 'Content-Type: application/toml' --data-binary @examples/later-book.toml"
    assert office.run(f"{asked}/trial?from={now() + 40 * 86400} {typed}").endswith(" 200")
    typed = "-H 'Content-Type: text/csv' --data-binary @examples/vouchers.csv"
    told = json.loads(office.run(f"{asked}/vouchers/check {typed}").rpartition(" ")[0])
    assert (told["good"], told["present"], told["new"]) == (True, 3, 0)
    body = '{"Account":"49153","Code":"000000000001","Reference":"v1"}'
    for _ in range(2):
        text = office.run(f"{asked}/redeem --json '{body}'")
        assert '"Result-Code":2001' in text and text.endswith(" 200")
    assert len(office.ask("GET", "/accounts/49153")["Buckets"]) == 2
    assert office.run("stat -c '%a %U' /var/lib/ocs/agent.db").split() == ["600", "root"]


def test_who_comes_without_the_doors_is_nobody(desk: Desk) -> None:
    ask = "curl -sS -w ' %{http_code}' --unix-socket /run/ocs-agent/socket"
    told = desk.office.run(f"{ask} -X POST -d '' http://agent/office/agent/bar/49151")
    assert "the doors don't say who asks" in told and told.endswith(" 403")
