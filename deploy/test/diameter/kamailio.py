"""Kamailio's ims_charging as a client of the bridge, SIP calls by sipp, freeDiameter as a relay, and a
capture of all of it."""
from __future__ import annotations

import contextlib
import dataclasses
import os
import pathlib
import re
import signal
import socket
import subprocess
import time
from collections.abc import Sequence
from typing import Any

from diameter.bridge import BOOK_OF_CALLS, Bridge, Office
from diameter.capture import Capture, Element, is_request, shown
from support import ports, world
from support.waiting import until

CALLS = pathlib.Path(__file__).resolve().parent / "calls"
HOSTS = "127.0.0.1 localhost ocs.example relay.example scscf.example\n"
# Micro-units of a second, by calls/book.toml.
PRICE = 1000
CREDIT = 10**9
# cdp looks its peer up by its name: a file of hosts of its own, in a mount namespace.
OWN_HOSTS = 'mount --bind "$0" /etc/hosts && exec "$@"'
Key = tuple[str, str, str]


@dataclasses.dataclass
class Reported:
    """Seconds of an account: of requests that were answered 2001, and of those that may be done."""

    known: int = 0
    open: list[int] = dataclasses.field(default_factory=list)

    def possible(self) -> set[int]:
        """What may have been charged."""
        sums = {self.known}
        for seconds in self.open:
            sums |= {each + seconds for each in sums}
        return sums


class Calls:
    """Kamailio, the called party, the relay where there is one, the bridge and the office."""

    def __init__(
        self,
        home: pathlib.Path,
        place: pathlib.Path,
        is_relayed: bool = False,
        office: Office | None = None,
    ) -> None:
        self.place, self.is_relayed = place, is_relayed
        self.office = office or Office(place / "office", book=BOOK_OF_CALLS)
        self.office.up()
        door = self.office.doors["gateways"]
        # Kamailio waits for ten seconds.
        self.bridge = Bridge(home, place / "bridge", door, answer_time="8000").start()
        self.sip, self.called, self.calling, self.relay, self.acceptor = (
            ports.free() for _ in range(5)
        )
        self.running: dict[str, subprocess.Popen[bytes]] = {}
        captured = [self.bridge.port] + ([self.relay] if is_relayed else [])
        self.capture = Capture(place / "capture.pcapng", captured)
        self.filled()

    def filled(self) -> None:
        """Writes the configurations."""
        told = {
            "SIP": self.sip,
            "UAS": self.called,
            "FOLDER": self.place,
            "DIAMETER": self.relay if self.is_relayed else self.bridge.port,
            "PEER": "relay.example" if self.is_relayed else "ocs.example",
            "ACCEPTOR": self.acceptor,
            "TC": 2,
            "RELAY": self.relay,
        }
        (self.place / "hosts").write_text(HOSTS)
        for name in ("kamailio.cfg", "cdp.xml", "relay.conf", "relay-peers.conf"):
            text = (CALLS / name).read_text()
            for word, value in told.items():
                at = self.bridge.port if (name, word) == ("relay.conf", "DIAMETER") else value
                text = text.replace(f"@{word}@", str(at))
            (self.place / name).write_text(text)

    def up(self) -> Calls:
        """Starts all; the gateway is connected afterwards."""
        self.capture.start()
        if self.is_relayed:
            key = ["-keyout", self.place / "relay.key", "-out", self.place / "relay.pem"]
            new = [
                "-x509",
                "-newkey",
                "rsa:2048",
                "-nodes",
                "-days",
                2,
                "-subj",
                "/CN=relay.example",
            ]
            world.done("openssl", "req", *new, *key)
            self.begin("relay", "freeDiameterd", "-c", self.place / "relay.conf")
            until(lambda: connects(self.relay), "the relay")
        here = [
            "unshare",
            "-m",
            "sh",
            "-c",
            OWN_HOSTS,
            self.place / "hosts",
            "kamailio",
            "-DD",
            "-E",
        ]
        file = ["-f", self.place / "kamailio.cfg", "-Y", self.place, "-P", self.place / "pid"]
        self.begin("kamailio", *here, *file)
        called = ["-i", "127.0.0.1", "-p", self.called, "-nostdin"]
        self.begin("called", "sipp", "-sf", CALLS / "called.xml", *called)
        until(lambda: " up" in self.bridge.errors.read_text(), "the gateway's connection")
        time.sleep(5 if self.is_relayed else 3)
        return self

    def begin(self, name: str, *words: object) -> subprocess.Popen[bytes]:
        """Starts a process with a group of its own."""
        with (self.place / f"{name}.out").open("ab") as out:
            self.running[name] = subprocess.Popen(
                list(map(str, words)),
                cwd=self.place,
                stdin=subprocess.DEVNULL,
                stdout=out,
                stderr=out,
                start_new_session=True,
            )
        return self.running[name]

    def stop(self, name: str) -> None:
        """Ends a process and its group."""
        process = self.running.pop(name, None)
        if process is None:
            return
        process.terminate()
        try:
            process.wait(60)
        except subprocess.TimeoutExpired:
            pass
        try:
            os.killpg(process.pid, signal.SIGKILL)
        except ProcessLookupError:
            pass
        process.wait()

    def end(self) -> None:
        """Ends all."""
        for name in list(self.running):
            self.stop(name)
        self.capture.stop()
        self.bridge.stop()
        self.office.end()

    def call(
        self,
        accounts: Sequence[str],
        scenario: str = "call",
        ms: int = 8000,
        rate: float = 10,
        seconds: int = 180,
    ) -> subprocess.Popen[bytes]:
        """Begins a call of each of these accounts, so many a second; all end within `seconds`."""
        users = self.place / f"users{time.monotonic_ns()}.csv"
        users.write_text("SEQUENTIAL\n" + "".join(f"{account};\n" for account in accounts))
        words = ["-sf", CALLS / f"{scenario}.xml", "-i", "127.0.0.1", "-p", self.calling]
        words += ["-inf", users, "-m", len(accounts), "-r", rate, "-d", ms, "-nostdin"]
        words += ["-timeout", seconds, f"127.0.0.1:{self.sip}"]
        return self.begin(users.stem, "sipp", *words)

    def talked(self, accounts: Sequence[str], **more: Any) -> None:
        """Such calls to their end, which has to be good."""
        process = self.call(accounts, **more)
        assert process.wait(240) == 0
        time.sleep(2)

    def captured(self) -> None:
        """Waits until what passed is in the capture: a request and an answer for each of the bridge's
        lines. A bridge that was killed may have written a line without its answer: then not long.
        """
        lines = sum(line["what"] == "CCR" for line in self.bridge.lines())
        wanted = 2 * lines * len(self.capture.ports)
        with contextlib.suppress(TimeoutError):
            until(lambda: self.capture.sessions() >= wanted, "the capture", 30)

    def reported(self) -> dict[str, Reported]:
        """What the capture says was reported, by account; each key of a session once."""
        asked: dict[tuple[str, str], tuple[Key, int]] = {}
        sure: dict[Key, int] = {}
        for stream, _, one in self.capture.messages(self.bridge.port):
            if shown(one, "diameter.cmd.code") != "272":
                continue
            hop = stream, shown(one, "diameter.hopbyhopid")
            if is_request(one):
                asked[hop] = key_of(one), used_in(one)
            elif hop in asked:
                key, seconds = asked[hop]
                code = shown(one, "diameter.Result-Code")
                if code == "2001" or code.startswith(("4", "5")):
                    sure[key] = seconds if code == "2001" else 0
        made: dict[str, Reported] = {}
        for key, seconds in set(asked.values()):
            account = made.setdefault(key[0], Reported())
            if key in sure:
                account.known += sure[key]
            elif seconds:
                account.open.append(seconds)
        return made

    def compared(self, accounts: Sequence[str], may_hold: bool = False) -> int:
        """Each balance is its credit less what was reported, and nothing is held. The seconds."""
        self.captured()
        reported, total = self.reported(), 0
        for account in accounts:
            credited, available, reserved, charged = self.office.sums(account)
            told = reported.get(account, Reported())
            assert charged in {min(each * PRICE, credited) for each in told.possible()}, (
                account,
                charged,
                told,
            )
            assert available + reserved + charged == credited and (may_hold or not reserved)
            total += told.known
        return total

    def frames(self) -> tuple[int, list[list[str]], int]:
        """Frames of Diameter; those that are malformed; and those in which Kamailio's
        User-Equipment-Info-Value has a length that tshark doesn't know."""
        self.captured()
        self.capture.stop()
        faults, own = self.capture.faults(), str(self.bridge.port)
        bad = [row for row in faults if row[1] == own or "User-Equipment-Info-Value" not in row[2]]
        return self.capture.count(), bad, len(faults) - len(bad)


def connects(port: int) -> bool:
    """Whether a connection is made: freeDiameter listens on a socket of another family."""
    with socket.socket() as one:
        return one.connect_ex(("127.0.0.1", port)) == 0


def key_of(one: Element) -> Key:
    """Account, session and number of a request."""
    digits = re.search(r"\d+", shown(one, "diameter.Subscription-Id-Data"))
    session, number = shown(one, "diameter.Session-Id"), shown(one, "diameter.CC-Request-Number")
    return digits.group() if digits else "?", session, number


def used_in(one: Element) -> int:
    """The seconds that a request reports."""
    return sum(
        int(unit.get("show") or 0)
        for used in one.iter("field")
        if used.get("name") == "diameter.Used-Service-Unit"
        for unit in used.iter("field")
        if unit.get("name") == "diameter.CC-Time"
    )
