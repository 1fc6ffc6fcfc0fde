"""The office of a copy of this machine: four shards, HAProxy and the agent as units of systemd, doors for
people, certificates, and a browser in there."""
from __future__ import annotations

import contextlib
import json
import pathlib
import time
from collections.abc import Iterator
from typing import Any

from month.machine import CLEAN, wait_until
from month.stand import Stand, stand
from support.world import done

from console.desk import debits, month_begun
from console.office import SECRET, initial
from console.person import Person

ACCOUNT, DAY = "49151", 86400
BOOK_OF_TOMORROW = "examples/later-book.toml"
DESK, COUNTER, OPERATORS = 8081, 8082, 8445
# Vouchers, and the shard that has them.
CODES, OF_CODES = [f"{at:012}" for at in range(1, 21)], "02"
FILE = f"""
[office]
synchronised = false
[agent]
fresh = 1
[[door]]
name = "desk"
role = "operator"
at = "127.0.0.1:{DESK}"
hosts = ["127.0.0.1:{DESK}"]
[[door]]
name = "counter"
role = "shop"
at = "127.0.0.1:{COUNTER}"
hosts = ["127.0.0.1:{COUNTER}"]
[[door]]
name = "operators"
role = "operator"
at = "127.0.0.1:{OPERATORS}"
tls = true
hosts = ["localhost:{OPERATORS}"]
[[door]]
name = "scripts"
role = "script"
at = "/run/haproxy/office.sock"
[[door]]
name = "measures"
role = "watcher"
at = "127.0.0.1:8404"
[[operator]]
name = "ada"
[[operator]]
name = "rosa"
only = "read"
password = "HASH"
"""
SET_UP = """
set -e
office certificate office --host localhost
office certificate operator ada
install -m 644 deploy/office-agent.* /etc/systemd/system/
systemctl daemon-reload && systemctl enable --now office-agent.socket
office doors > /etc/haproxy/haproxy.cfg && systemctl restart haproxy
office clearing --write
"""
# The browser knows the office by its authority, and shows the certificate of ada by itself.
KEYS = """
set -e
mkdir -p ~/.pki/nssdb /etc/chromium/policies/managed && certutil -N --empty-password -d sql:$HOME/.pki/nssdb
certutil -A -d sql:$HOME/.pki/nssdb -n office -t C,, -i /etc/ocs/tls/clients.pem
openssl pkcs12 -export -passout pass: -inkey /etc/ocs/authority/ada.key -in /etc/ocs/authority/ada.crt -out /run/ada.p12
pk12util -d sql:$HOME/.pki/nssdb -i /run/ada.p12 -W ''
"""
POLICY = {"AutoSelectCertificateForUrls": ['{"pattern":"https://localhost:8445","filter":{}}']}
POLICIES = "/etc/chromium/policies/managed/office.json"


class Desk:
    """The office, what its agent answers at the operators' door, and its browser."""

    def __init__(self, office: Stand) -> None:
        self.office = office

    def told(self, path: str) -> Any:
        """What the agent answers."""
        asked = f"curl -sS --max-time 120 http://127.0.0.1:{DESK}/office/agent/{path}"
        return json.loads(self.office.run(asked))

    def person(self, port: int, name: str = "", *, has_tls: bool = False) -> Person:
        """Somebody at the page, with a browser of the copy."""
        home = f"HOME=/tmp/{name or port}" if not has_tls else "HOME=/root"
        one = Person(pathlib.Path(f"/tmp/browser-{port}-{name}"), [*self.enter(), home])
        one.go_to(port, name, has_tls=has_tls)
        return one

    def enter(self) -> list[str]:
        """Words that run a process in the copy."""
        first = self.office.machine.first()
        return ["nsenter", "-t", first, "-m", "-p", "-n", "-u", "-i", "-C", *CLEAN]

    def lines(self) -> list[dict[str, Any]]:
        """The agent's lines in the journal."""
        text = self.office.run("journalctl -u office-agent -o cat --no-pager")
        return [json.loads(row) for row in text.splitlines() if row.startswith("{")]

    def new(self, number: int, shard: str, amount: int = 1_000_000) -> str:
        """An open account of this shard with money, from a number on."""
        while self.office.home(str(number)) != shard:
            number += 1
        self.office.open(str(number), amount)
        return str(number)


@contextlib.contextmanager
def stood() -> Iterator[Desk]:
    """The office, once its units answer: an account with charges of the last days and an open session,
    vouchers, and a book that comes tomorrow."""
    with stand() as office:
        hashed = done("openssl", "passwd", "-5", "-salt", "rounds=1000$abc", SECRET).strip()
        history(office)
        office.machine.write("/etc/ocs/office.toml", FILE.replace("HASH", hashed))
        office.run(SET_UP)
        office.run(KEYS)
        office.machine.write(POLICIES, json.dumps(POLICY))
        rows = "".join(f"{code},5000000,30,\n" for code in CODES)
        office.machine.write("/tmp/vouchers.csv", "code,amount,days,scope\n" + rows)
        office.run(f"office import --shard {OF_CODES} /tmp/vouchers.csv")
        moment = int(time.time()) + DAY
        office.run(f"office book {BOOK_OF_TOMORROW} --from {moment}")
        yield Desk(office)


def history(office: Stand) -> None:
    """Debits of the last days of this month, dated, and a session that is open now."""
    home, now = office.home(ACCOUNT), int(time.time())
    begin = max(month_begun(now), now - 3 * DAY)
    database = f"/var/lib/ocs/{home}.db"
    office.machine.write("/tmp/lines", "".join(debits(ACCOUNT, begin, now)))
    by = "runuser -u ocs -- ocs"
    office.run(f"systemctl stop ocs@{home}")
    office.run(f"{by} open {database} {ACCOUNT} --at {begin}")
    office.run(f"{by} credit {database} {ACCOUNT} 20000000 cash-1 --at {begin}")
    office.run(f"{by} allow {database} {ACCOUNT} 6 bundle --scope 10 --at {begin}")
    office.run(f"{by} replay {database} /tmp/lines && systemctl start ocs@{home}")
    wait_until(lambda: office.is_up(home), "the shard")
    assert office.ask("POST", "/ccr", initial(ACCOUNT, "voice-1", 600))["Result-Code"] == 2001
