"""The page's steps from nothing to a peer, under systemd in a copy of this machine: the bridge and what
follows the doors' log are units, a gateway connects, and a credit at the door reaches it."""
from __future__ import annotations

import re
from collections.abc import Iterator

import pytest
from diameter.bridge import SOURCE
from month.machine import wait_until
from month.stand import Stand, stand

pytestmark = pytest.mark.slow

# Seconds that a start may take on a machine that does other work.
PATIENT = 300
# A gateway in there, which prints what it is told.
GATEWAY = """
import subprocess
import sys
import time
sys.path.insert(0, "/srv/ocs/deploy/test")
from diameter.wire import DPR, RAR, Gateway, ccr, seconds, service

def ran(line):
    return subprocess.run(line, shell=True, check=True, capture_output=True, text=True).stdout

def connected():
    for _ in range(600):
        try:
            return Gateway(3868)
        except ConnectionRefusedError:
            time.sleep(0.5)

def update(number):
    used = service(10, seconds(60), [seconds(60)])
    return gateway.ask(ccr("unit", 2, number, used, account="49151")).result

gateway = connected()
first = gateway.ask(ccr("unit", 1, 0, service(10, seconds(600)), account="49151"))
print("initial", first.result, "Final-Unit-Indication" in first.services[0])
ran(sys.argv[1])
print("told", len(gateway.asked(RAR)), update(1))
ran("systemctl reload ocs-diameter")
print("reload", update(2))
ran("systemctl restart ocs-diameter")
print("restart", gateway.ended(), len(gateway.asked(DPR)))
gateway = connected()
print("again", update(3))
"""
CREDIT = (
    "curl -sS --fail --unix-socket /run/haproxy/office.sock -H 'Content-Type: application/json'"
    """ -d '{"Amount":1000000,"Reference":"more"}' http://office/accounts/49151/credits"""
)


def steps() -> str:
    """The page's commands, without those of apt-get: a copy of this machine has the packages."""
    page = (SOURCE / "README.md").read_text()
    found = re.search(r"^## From nothing to a peer$.*?^```\n(.*?)^```$", page, re.M | re.S)
    assert found and found[1].startswith("apt-get ")
    return "set -e\n" + found[1].partition("\n")[2]


@pytest.fixture(scope="module")
def peer() -> Iterator[Stand]:
    """An office with a bridge that the page's steps have made."""
    with stand() as office:
        office.run("install -d /usr/local/share/man/man8")
        office.run(steps())
        office.run("chmod 600 /etc/ocs/office.toml")
        office.run(r"sed -i 's/^  %% groups => /  groups => /' /etc/ocs/diameter.config")
        office.run("/usr/lib/ocs-diameter/ocs-diameter --check /etc/ocs/diameter.config")
        office.run("systemctl daemon-reload && systemctl enable --now ocs-diameter ocs-credited")
        wait_until(lambda: listening(office) == 1, "the bridge", PATIENT)
        yield office


def listening(office: Stand) -> int:
    """How often the bridge has opened its port."""
    return office.run("journalctl -u ocs-diameter -o cat").count("listening")


def test_both_units_run(peer: Stand) -> None:
    for unit in ("ocs-diameter", "ocs-credited"):
        assert peer.run(f"systemctl is-active {unit}").strip() == "active"
        assert peer.run(f"systemctl is-enabled {unit}").strip() == "enabled"


def test_a_gateway_under_systemd(peer: Stand) -> None:
    """A credit at the door reaches it; the unit is reloaded, and restarted with a word to it."""
    peer.open("49151", 300_000)
    peer.machine.write("/tmp/gateway.py", GATEWAY)
    peer.machine.write("/tmp/credit", CREDIT)
    told = peer.machine.run('/usr/bin/python3 /tmp/gateway.py "$(cat /tmp/credit)"').stdout
    assert told.splitlines() == [
        "initial 2001 True",
        "told 1 2001",
        "reload 2001",
        "restart True 1",
        "again 2001",
    ]


def test_a_later_book(peer: Stand) -> None:
    """`office book` names the group that the bridge doesn't know, until `office diameter` has it."""
    words = "office book examples/later-book.toml --from 1950000000"
    told = peer.machine.run(words)
    assert told.stderr.splitlines()[-1].endswith("`office diameter` and a reload: 40")
    assert "40 events" in peer.run("office diameter")
    assert "`office diameter`" not in peer.machine.run(words).stderr
    reads = "journalctl -u ocs-diameter -o cat | grep -c 'read again'"
    before = peer.run(f"{reads} || true")
    peer.run("systemctl reload ocs-diameter")
    wait_until(lambda: peer.run(f"{reads} || true") != before, "the reload", PATIENT)


def test_a_bridge_that_is_killed_comes_back(peer: Stand) -> None:
    before = listening(peer)
    peer.run("systemctl kill --signal KILL ocs-diameter")
    wait_until(lambda: listening(peer) > before, "another process", PATIENT)


def test_the_lines_are_in_the_journal(peer: Stand) -> None:
    """The page's place for them, which `office trace` reads."""
    told = peer.run("journalctl -u ocs-diameter -o cat")
    assert '"session":"unit"' in told and '"what":"RAR"' in told
    assert "at diameter: initial request 0 of session unit: accepted" in peer.run(
        "office trace 49151 '-30 min'"
    )
