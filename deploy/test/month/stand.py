"""An office of four shards behind the doors, in a copy of the machine, for the tests of the month."""
from __future__ import annotations

import contextlib
import json
import subprocess
import time
from collections.abc import Iterator
from typing import Any

from month.machine import Machine, machine, wait_until

SOCKET = "/run/haproxy/office.sock"
BOOK = "examples/book.toml"
# Its first word is the book of the shards.
SET_UP = f"""
set -e
useradd --system --home-dir /var/lib/ocs ocs
install -m 644 deploy/ocs@.service deploy/office-archive.socket deploy/office-archive.service \\
    /etc/systemd/system/
install -D -m 644 -t /usr/local/share/ocs/console deploy/console/*
install -d -o ocs -g ocs -m 750 /var/lib/ocs && install -d /etc/ocs /run/haproxy /etc/haproxy
ln -s /srv/ocs/deploy/bin/office /usr/local/bin/office
printf '[office]\\nsynchronised = false\\n' > /etc/ocs/office.toml
for s in 01 02 03 04; do runuser -u ocs -- ocs init /var/lib/ocs/$s.db ${{1:-{BOOK}}}; done
systemctl daemon-reload
systemctl start ocs@01 ocs@02 ocs@03 ocs@04 office-archive.socket
"""
DOORS = """
set -e
printf '[office]\\nsynchronised = false\\nmore = %s\\n' "$1" > /etc/ocs/office.toml
office doors > /etc/haproxy/haproxy.cfg
haproxy -c -q -f /etc/haproxy/haproxy.cfg
systemctl restart haproxy
"""


# Debits of all accounts in turn, each asked again until it is answered; prints what was answered.
ASKS = """
import http.client, json, socket, sys, time
class Door(http.client.HTTPConnection):
    def connect(self):
        self.sock = socket.socket(socket.AF_UNIX)
        self.sock.settimeout(60)
        self.sock.connect("/run/haproxy/office.sock")
first, count, turns = map(int, sys.argv[1:4])
door, done, again = Door("office"), 0, 0
for turn in range(turns):
    for account in map(str, range(first, first + count)):
        body = json.dumps({"Session-Id": f"{sys.argv[4]}{turn}", "CC-Request-Type": 4, "CC-Request-Number": 0,
            "Requested-Action": 0,
            "Subscription-Id": {"Subscription-Id-Type": 0, "Subscription-Id-Data": account},
            "Multiple-Services-Credit-Control": [
                {"Rating-Group": 30, "Requested-Service-Unit": {"CC-Service-Specific-Units": 1}}]})
        while True:
            try:
                door.request("POST", "/ccr", body, {"Content-Type": "application/json"})
                answer = door.getresponse()
                told = answer.read().decode()
                if answer.status == 200:
                    break
            except (OSError, http.client.HTTPException):
                door.close()
            again += 1
            time.sleep(0.1)
        assert json.loads(told)["Result-Code"] == 2001, told
        done += 1
print(done, again)
"""
PRICE = 90_000  # of an event of group 30, in micro-units


class Stand:
    """The office and what asks it."""

    def __init__(self, made: Machine) -> None:
        self.machine = made

    def run(self, line: str, status: int | None = 0) -> str:
        """What a line prints on both streams."""
        told = self.machine.run(line, status)
        return told.stdout + told.stderr

    def started(self, words: str) -> subprocess.Popen[str]:
        """A word that goes on meanwhile, and that `kill` can end."""
        return self.machine.started(f"echo $$ > /run/word; exec {words}")

    def kill(self, word: subprocess.Popen[str]) -> None:
        """Ends the word that was started last by -9; nothing may happen if it has ended."""
        self.run("kill -KILL $(cat /run/word)", None)
        word.communicate(timeout=60)

    def ask(self, method: str, path: str, body: object = None, shard: str = "") -> Any:
        """The body of the office's answer."""
        return json.loads(self.asked(method, path, body, shard).partition("\n\n")[2])

    def asked(self, method: str, path: str, body: object = None, shard: str = "") -> str:
        """The office's answer with its head."""
        more = f"-H 'Office-Shard: {shard}' " if shard else ""
        more += f"-d '{json.dumps(body)}'" if body else ""
        more += " -H 'Content-Type: application/json'" if body else ""
        more += " -H 'Content-Length: 0'" if not body and method != "GET" else ""
        asked = f"curl -sS -i --max-time 90 -X {method} {more} --unix-socket {SOCKET}"
        return self.machine.run(f"{asked} http://office{path}").stdout.replace("\r", "")

    def home(self, account: str) -> str:
        """The shard that answers for an account."""
        head = self.asked("GET", f"/accounts/{account}").lower()
        return head.partition("office-shard: ")[2][:2]

    def open(self, account: str, amount: int = 0, reference: str = "c1") -> None:
        """Opens an account, and gives it money."""
        assert self.ask("PUT", f"/accounts/{account}") == {"Result-Code": 2001}
        if amount:
            body = {"Amount": amount, "Reference": reference}
            assert "Bucket" in self.ask("POST", f"/accounts/{account}/credits", body)

    def debit(self, account: str, session: str, units: int = 60, group: int = 10) -> Any:
        """The answer to a debit of seconds."""
        return self.ask("POST", "/ccr", request(account, session, 4, 0, group, units))

    def asks(self, first: int, count: int, turns: int, name: str) -> subprocess.Popen[str]:
        """Debits of so many accounts in turn, one event each, which go on meanwhile."""
        self.machine.write("/tmp/asks.py", ASKS)
        return self.machine.started(f"python3 /tmp/asks.py {first} {count} {turns} {name}")

    def available(self, account: str) -> int:
        """The money that an account has available."""
        told = self.ask("GET", f"/accounts/{account}")["Buckets"]
        return sum(each["Available"] for each in told if "Unit" not in each)

    def is_up(self, shard: str) -> bool:
        """Whether a shard's unit is active."""
        return self.run(f"systemctl is-active ocs@{shard}", None).strip() == "active"

    def logs(self, text: str, count: int = 1) -> None:
        """Waits until the doors' log has a text so many times."""
        line = "journalctl --no-pager --unit haproxy --output cat"
        wait_until(lambda: self.run(line, None).count(text) >= count, f"{text} in the log")

    def table(self, shard: str, query: str) -> list[str]:
        """The rows of a selection over a copy of a shard."""
        line = f"office backup {shard} /tmp/{shard}.db > /dev/null && sqlite3 /tmp/{shard}.db"
        return self.run(f'{line} "{query}"').split()


def request(
    account: str, session: str, kind: int, number: int, group: int, units: int, used: int = -1
) -> dict[str, Any]:
    """A request of one service of seconds; kind 4 is a debit."""
    service: dict[str, Any] = {"Rating-Group": group}
    if units >= 0:
        service["Requested-Service-Unit"] = {"CC-Time": units}
    if used >= 0:
        service["Used-Service-Unit"] = [{"CC-Time": used}]
    return {
        "Session-Id": session,
        "CC-Request-Type": kind,
        "CC-Request-Number": number,
        **({"Requested-Action": 0} if kind == 4 else {}),
        "Subscription-Id": {"Subscription-Id-Type": 0, "Subscription-Id-Data": account},
        "Multiple-Services-Credit-Control": [service],
    }


@contextlib.contextmanager
def stand() -> Iterator[Stand]:
    """An office that answers."""
    with machine() as made:
        made.run(SET_UP)
        doors(made, 0)
        yield Stand(made)


def doors(made: Machine, more: int) -> None:
    """Puts the doors in front of the four shards and so many more, and waits until they answer."""
    made.run("touch /etc/ocs/moved")
    made.run(f"set -- {more}\n{DOORS}")
    line = f"curl -sS -m 5 --unix-socket {SOCKET} http://office/accounts/1"
    wait_until(lambda: made.run(line, None).stdout.startswith('{"Refusal'), "the doors")


def now() -> int:
    """The machine's clock."""
    return int(time.time())
