"""Whatever an office answers first, a gateway loses no used second: examples/gateway over an
office by script, which grants 600 seconds at a time.

`pytest deploy/test/gateway` runs it, with openssl, and without the program or
HAProxy. A row more of FAULTS or of REFUSALS is a call more, of some 0.3 seconds and its
waits."""
from __future__ import annotations

import dataclasses
import json
import pathlib
import re
import socket
import socketserver
import ssl
import struct
import subprocess
import sys
import threading
import time
from collections.abc import Callable
from typing import Any

import pytest

Json = dict[str, Any]
Reply = Callable[[Json], bytes]
Head = list[tuple[str, str]]

GATEWAY = pathlib.Path(__file__).resolve().parents[3] / "examples/gateway/gateway.py"
CALL, GRANT, AT = 1700, 600, 1767607200
# The numbers of its requests: two updates follow the first, and the last reports the rest.
FIRST, UPDATE, LAST = 0, 1, 3
EACH = (0, 1, 2, 3)
ALWAYS = 1_000_000
SERVICES = "Multiple-Services-Credit-Control"


@dataclasses.dataclass(frozen=True)
class Fault:
    """What comes in the place of an answer."""

    name: str
    reply: Reply
    is_accepted: bool = False  # the request has been carried out all the same
    is_end: bool = False  # the connection ends then
    is_reset: bool = False  # by a reset


@dataclasses.dataclass(frozen=True)
class Refusal:
    """What an office answers for good to one request, and what the gateway makes of it."""

    name: str
    fault: Fault
    number: int
    requests: int  # how many it sends in all
    unreported: int  # the used seconds that it says it couldn't report
    reported: int


def message(status: int, body: Json | list[int] | str, fields: str = "") -> bytes:
    """The bytes of an answer."""
    text = body if isinstance(body, str) else json.dumps(body)
    head = f"HTTP/1.1 {status} X\r\n{fields}Content-Length: {len(text)}\r\n\r\n"
    return (head + text).encode()


def answer(request: Json, code: int, service: Json | None = None) -> bytes:
    """The office's answer to a request, with one service or none."""
    names = ("Session-Id", "CC-Request-Type", "CC-Request-Number")
    told: Json = {**{name: request[name] for name in names}, "Result-Code": code}
    told |= {SERVICES: [{"Rating-Group": 10, **service}]} if service else {}
    return message(200, told)


def granted(request: Json, seconds: int = GRANT) -> bytes:
    """What is asked for is granted; a termination is done."""
    if request["CC-Request-Type"] == 3:
        return answer(request, 2001, {"Result-Code": 2001})
    unit = {"Granted-Service-Unit": {"CC-Time": seconds}, "Validity-Time": 3600}
    return answer(request, 2001, {**unit, "Result-Code": 2001})


def told(name: str, status: int, body: Json | list[int] | str = "{}", fields: str = "") -> Fault:
    """A whole answer to a request that wasn't carried out."""
    return Fault(name, lambda request: message(status, body, fields))


def unable(name: str, status: int, is_accepted: bool) -> Fault:
    """What HAProxy answers in a shard's place, and the program where it failed."""
    body = {"Result-Code": 5012}
    return Fault(name, lambda request: message(status, body), is_accepted)


def page(name: str, status: int) -> Fault:
    """HAProxy's own answer to bytes that it doesn't read."""
    text = f"<html><body><h1>{status}</h1>\nYour browser sent it.\n</body></html>\n"
    fields = "Content-Type: text/html\r\nConnection: close\r\n"
    return Fault(name, lambda request: message(status, text, fields), is_end=True)


def other(name: str, member: str, value: int | str) -> Fault:
    """The answer to another request."""
    return Fault(name, lambda request: granted({**request, member: value}))


def cut(name: str, rest: Callable[[bytes], bytes], is_accepted: bool = True) -> Fault:
    """What is left of the answer, and the connection's end."""
    return Fault(name, lambda request: rest(granted(request)), is_accepted, is_end=True)


def change(name: str, old: bytes, new: bytes) -> Fault:
    """The answer with a word changed for one as long."""
    return Fault(name, lambda request: granted(request).replace(old, new))


def refused(code: int) -> Fault:
    """A refusal or a denial of the whole request."""
    return Fault(f"{code}", lambda request: answer(request, code))


def settled(code: int) -> Fault:
    """The report is settled, and nothing is granted."""
    service = {"Result-Code": code}
    return Fault(f"{code}", lambda request: answer(request, 2001, service), is_accepted=True)


FAULTS = [
    cut("200 that is cut", lambda text: text[:-40]),
    cut("200 without its last byte", lambda text: text[:-1]),
    cut("200 without its body", lambda text: text.split(b"{")[0]),
    cut("200 with a short length", lambda text: re.sub(rb"h: \d+", b"h: 9", text)),
    told("200 that isn't JSON", 200, "OK"),
    told("200 that is an array", 200, [2001]),
    told("200 without a body", 200, ""),
    told("200 without a code", 200, {}),
    told("200 with a code alone", 200, {"Result-Code": 2001}),
    change("200 with all but a code", b"Result-Code", b"Failed-Code"),
    change("503 that looks like an answer", b" 200 ", b" 503 "),
    page("200 as HTML", 200),
    other("the answer of another session", "Session-Id", "another"),
    other("the answer of another number", "CC-Request-Number", 7),
    other("the answer of another type", "CC-Request-Type", 4),
    told("301", 301, {}, "Location: /elsewhere\r\n"),
    told("307", 307, {}, "Location: /elsewhere\r\n"),
    told("400", 400),
    told("400 with a code", 400, {"Failed-AVP": "Session-Id", "Result-Code": 5004}),
    page("400 as HTML", 400),
    told("401", 401),
    told("403", 403),
    told("404", 404),
    told("405", 405),
    told("408", 408),
    page("408 as HTML", 408),
    told("411", 411),
    told("413", 413),
    told("415", 415),
    told("421", 421),
    told("429", 429),
    told("431", 431),
    told("501", 501),
    unable("500", 500, is_accepted=True),
    unable("502", 502, is_accepted=True),
    unable("502 of a shard that was killed before", 502, is_accepted=False),
    unable("503", 503, is_accepted=False),
    unable("503 after the disk failed", 503, is_accepted=True),
    unable("504", 504, is_accepted=True),
    unable("504 of a queue that was left", 504, is_accepted=False),
    cut("nothing", lambda text: b""),
    cut("nothing of a dead office", lambda text: b"", is_accepted=False),
    cut("half a head", lambda text: text[:20]),
    cut("no HTTP", lambda text: b"SSH-2.0-OpenSSH_9.2\r\n"),
    Fault("a reset", lambda request: b"", True, is_end=True, is_reset=True),
]
REFUSALS = [
    Refusal("4010 at first", refused(4010), FIRST, 1, 0, 0),
    Refusal("4012 at first", refused(4012), FIRST, 1, 0, 0),
    Refusal("5004 at first", refused(5004), FIRST, 1, 0, 0),
    Refusal("5012 at first", refused(5012), FIRST, 1, 0, 0),
    Refusal("5030 at first", refused(5030), FIRST, 1, 0, 0),
    Refusal("5031 at first", refused(5031), FIRST, 1, 0, 0),
    Refusal("4010 of the service", settled(4010), UPDATE, 3, 0, 600),
    Refusal("4012 of the service", settled(4012), UPDATE, 3, 0, 600),
    Refusal("5002", refused(5002), UPDATE, 2, 600, 0),
    Refusal("5004", refused(5004), UPDATE, 2, 600, 0),
    Refusal("5012", refused(5012), UPDATE, 2, 600, 0),
    Refusal("5030", refused(5030), UPDATE, 2, 600, 0),
    Refusal("5002 at last", refused(5002), LAST, 4, 500, 1200),
]


def name_of(row: Fault | Refusal) -> str:
    """The name of a test of that row."""
    return row.name


WELL = Fault("well", granted, is_accepted=True)
AWAY = Fault("away", lambda request: b"", is_end=True)


class Office:
    """An office by script. Requests of some numbers meet a fault some times each."""

    def __init__(self, fault: Fault = WELL, *numbers: int, times: int = 1) -> None:
        self.fault, self.numbers, self.times = fault, numbers or (UPDATE,), times
        self.port, self.grant, self.connections = 0, GRANT, 0
        self.tls: ssl.SSLContext | None = None
        # The requests that came, by their number, and when; those that were carried out.
        self.heads: list[Head] = []
        self.bodies: list[tuple[int, bytes]] = []
        self.moments: list[float] = []
        self.accepted: dict[int, Json] = {}
        self.has_failed = threading.Event()

    def __enter__(self) -> Office:
        self.start()
        return self

    def __exit__(self, *fault: object) -> None:
        self.stop()

    def start(self) -> None:
        self.server = Server(("127.0.0.1", self.port), Connection)
        self.server.office = self
        self.port = self.server.server_address[1]
        if self.tls:
            listener = self.server.socket
            self.server.socket = self.tls.wrap_socket(listener, server_side=True)
        threading.Thread(target=self.server.serve_forever, args=(0.05,), daemon=True).start()

    def stop(self) -> None:
        self.server.shutdown()
        self.server.server_close()

    def serve(self, head: Head, body: bytes) -> tuple[Fault, bytes]:
        """What comes for a request, and its bytes."""
        request = json.loads(body)
        number = request["CC-Request-Number"]
        self.heads.append(head)
        self.bodies.append((number, body))
        self.moments.append(time.monotonic())
        is_fault = number in self.numbers and self.count(number) <= self.times
        fault = self.fault if is_fault else WELL
        if fault.is_accepted:
            self.accepted.setdefault(number, request)
        if is_fault:
            self.has_failed.set()
        return fault, fault.reply(request) if is_fault else granted(request, self.grant)

    def count(self, number: int) -> int:
        """How often the request of a number came."""
        return sum(one == number for one, _ in self.bodies)

    def reported(self) -> int:
        """The used seconds of all requests that were carried out, each once."""
        services = [request[SERVICES][0] for request in self.accepted.values()]
        parts = [part for one in services for part in one.get("Used-Service-Unit", [])]
        return sum(part["CC-Time"] for part in parts)

    def texts(self) -> dict[int, set[bytes]]:
        """The different bodies of each number."""
        return {
            number: {body for one, body in self.bodies if one == number}
            for number, _ in self.bodies
        }


class Server(socketserver.ThreadingTCPServer):
    """The port of an office."""

    allow_reuse_address = True
    daemon_threads = True
    office: Office


class Connection(socketserver.StreamRequestHandler):
    """A connection of an office: one request after another."""

    server: Server

    def handle(self) -> None:
        self.server.office.connections += 1
        while head := self.read_head():
            body = self.rfile.read(int(dict(head)["content-length"]))
            fault, text = self.server.office.serve(head, body)
            self.wfile.write(text)
            if fault.is_reset:
                linger = struct.pack("ii", 1, 0)
                self.connection.setsockopt(socket.SOL_SOCKET, socket.SO_LINGER, linger)
                self.connection.close()
            if fault.is_end:
                return

    def read_head(self) -> Head:
        """The request line and the fields; nothing at the connection's end."""
        head: Head = []
        while line := self.rfile.readline().decode().strip():
            name, _, value = line.partition(": ")
            head.append((name.lower(), value) if head else (line, ""))
        return head


def words_of(office: Office, seconds: int = CALL, *more: str) -> list[str]:
    """The words of a gateway's call."""
    place = f"{'https' if office.tls else 'http'}://localhost:{office.port}"
    call = [place, "49151", "s", str(seconds), str(AT)]
    return [sys.executable, str(GATEWAY), *call, *more]


def ran(office: Office, seconds: int = CALL, *more: str) -> subprocess.CompletedProcess[str]:
    """A gateway's call, which has ended."""
    words = words_of(office, seconds, *more)
    return subprocess.run(words, capture_output=True, text=True, timeout=60, check=False)


def assert_whole(office: Office, status: int, said: str) -> None:
    """The call went on to its end, each used second was reported once, and nothing is said."""
    assert (status, said) == (0, "")
    assert office.reported() == CALL
    assert sorted(office.accepted) == [0, 1, 2, 3]
    assert {len(texts) for texts in office.texts().values()} == {1}, "the same bytes again"


@pytest.mark.parametrize("fault", FAULTS, ids=name_of)
def test_no_used_second_is_lost(fault: Fault) -> None:
    with Office(fault, *EACH) as office:
        ended = ran(office)
    assert_whole(office, ended.returncode, ended.stderr)
    assert [office.count(number) for number in EACH] == [2, 2, 2, 2]


@pytest.mark.parametrize("refusal", REFUSALS, ids=name_of)
def test_what_is_not_reported_is_said(refusal: Refusal) -> None:
    with Office(refusal.fault, refusal.number, times=ALWAYS) as office:
        ended = ran(office)
    assert len(office.bodies) == refusal.requests, "a final answer isn't asked for again"
    assert office.reported() == refusal.reported
    assert ended.returncode == (1 if refusal.unreported else 0)
    last = f"{refusal.unreported} used seconds aren't reported: request {refusal.number} "
    assert ended.stderr.startswith(last if refusal.unreported else "")
    assert (f'"Result-Code": {refusal.fault.name}' in ended.stderr) == bool(refusal.unreported)


@pytest.mark.parametrize("fault", FAULTS[::4], ids=name_of)
def test_what_never_comes_is_said(fault: Fault) -> None:
    with Office(fault, UPDATE, times=ALWAYS) as office:
        ended = ran(office, CALL, "--patience", "0.3")
    assert ended.returncode == 1
    assert ended.stderr.startswith("600 used seconds aren't reported: request 1 of session s: ")
    assert len(ended.stderr.splitlines()) == 1
    assert office.count(UPDATE) >= 2 and len(office.texts()[UPDATE]) == 1


def answer_late(request: Json) -> bytes:
    """The answer, later than the gateway waits for it."""
    time.sleep(3)
    return granted(request)


def test_an_answer_that_is_late() -> None:
    with Office(Fault("late", answer_late, is_accepted=True)) as office:
        ended = ran(office, CALL, "--wait", "1")
    assert_whole(office, ended.returncode, ended.stderr)


@pytest.mark.parametrize("number", [FIRST, UPDATE, LAST])
def test_an_office_that_is_away_for_seconds(number: int) -> None:
    with Office(AWAY, number, times=ALWAYS) as office:
        words, said_to = words_of(office), subprocess.PIPE
        with subprocess.Popen(words, stdout=said_to, stderr=said_to, text=True) as gateway:
            assert office.has_failed.wait(30)
            office.stop()
            time.sleep(2)
            office.times = 0
            office.start()
            _, said = gateway.communicate(timeout=60)
    assert_whole(office, gateway.returncode, said)


def test_waits_grow() -> None:
    with Office(unable("503", 503, is_accepted=False), times=5) as office:
        ended = ran(office)
    assert_whole(office, ended.returncode, ended.stderr)
    moments = [at for at, (one, _) in zip(office.moments, office.bodies) if one == UPDATE]
    waits = [later - earlier for earlier, later in zip(moments, moments[1:])]
    assert len(waits) == 5
    assert all(wait >= 0.1 * 2**at for at, wait in enumerate(waits))


def test_a_connection_is_kept() -> None:
    with Office(unable("503", 503, is_accepted=False)) as office:
        office.grant = 20
        ended = ran(office, 100)
    assert (ended.returncode, office.reported()) == (0, 100)
    assert (len(office.bodies), office.connections) == (7, 1)


def two_answers(request: Json) -> bytes:
    """Another session's answer, and the right one behind it."""
    return granted({**request, "Session-Id": "another"}) + granted(request, 20)


def test_a_connection_that_is_out_of_step() -> None:
    with Office(Fault("two answers", two_answers, is_accepted=True)) as office:
        office.grant = 20
        ended = ran(office, 100)
    assert (ended.returncode, office.reported()) == (0, 100)
    assert (len(office.bodies), office.connections) == (7, 2)


def test_a_connection_ends_before_a_long_rest() -> None:
    with Office() as office:
        ended = ran(office)
    assert_whole(office, ended.returncode, ended.stderr)
    assert (len(office.bodies), office.connections) == (4, 4)


def test_what_a_door_looks_at() -> None:
    with Office() as office:
        ran(office)
    for head in office.heads:
        fields = dict(head[1:])
        assert head[0] == ("POST /ccr HTTP/1.1", "")
        assert fields["host"] == f"localhost:{office.port}"
        assert fields["content-type"] == "application/json"
        assert not fields.keys() & {"transfer-encoding", "origin", "office-shard"}


def certify(name: str, folder: pathlib.Path) -> None:
    """Makes a certificate of that name, which is its own authority, and its key."""
    words = f"openssl req -x509 -nodes -newkey ec -pkeyopt ec_paramgen_curve:P-256 -subj /CN={name}"
    files = ["-keyout", f"{folder}/{name}.key", "-out", f"{folder}/{name}.crt"]
    named = ["-addext", f"subjectAltName=DNS:{name}"]
    subprocess.run([*words.split(), *files, *named], check=True, capture_output=True)


def test_a_door_with_tls(tmp_path: pathlib.Path) -> None:
    for name in ("localhost", "pgw-1"):
        certify(name, tmp_path)
    office = Office(FAULTS[0])
    office.tls = ssl.SSLContext(ssl.PROTOCOL_TLS_SERVER)
    office.tls.load_cert_chain(tmp_path / "localhost.crt", tmp_path / "localhost.key")
    office.tls.load_verify_locations(tmp_path / "pgw-1.crt")
    office.tls.verify_mode = ssl.CERT_REQUIRED
    own = ["--cert", f"{tmp_path}/pgw-1.crt", "--key", f"{tmp_path}/pgw-1.key"]
    authority = ["--cacert", f"{tmp_path}/localhost.crt"]
    with office:
        strangers: list[list[str]] = [authority, own, []]
        told = [ran(office, CALL, "--patience", "0", *words) for words in strangers]
        assert [one.returncode for one in told] == [1, 1, 1] and office.bodies == []
        ended = ran(office, CALL, *authority, *own)
    assert_whole(office, ended.returncode, ended.stderr)


@pytest.mark.parametrize("words", ["", "8080 49151 s 60", "http://localhost:1 49151 s x"])
def test_words_that_are_wrong(words: str) -> None:
    told = [sys.executable, str(GATEWAY), *words.split()]
    ended = subprocess.run(told, capture_output=True, text=True, check=False)
    assert ended.returncode == 2 and ended.stderr.startswith("usage: ")


@pytest.mark.parametrize("check", ["mypy --strict", "black --check"])
def test_its_text(check: str) -> None:
    subprocess.run([sys.executable, "-m", *check.split(), str(GATEWAY)], check=True)


if __name__ == "__main__":
    sys.exit(pytest.main([__file__]))
