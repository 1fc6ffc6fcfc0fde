"""Who asks at a door: by a port or a socket, with a certificate or without; and plain bytes."""
from __future__ import annotations

import contextlib
import http.client
import json
import pathlib
import re
import socket
import ssl
import time
from dataclasses import dataclass
from typing import Any

from support.world import World

NO_CONNECTION = 0
# A field that isn't sent though it usually is.
LEFT_OUT = "-"


@dataclass(frozen=True)
class Answer:
    """A status, the fields and the text of an answer; status 0 where no connection is made."""

    status: int
    fields: dict[str, str]
    text: str

    @property
    def body(self) -> Any:
        """The answer's JSON."""
        return json.loads(self.text)

    @property
    def shard(self) -> str:
        """The shard that answered."""
        return self.fields.get("office-shard", "")


class Connection(http.client.HTTPConnection):
    """A connection to a door: a port or a socket's path; with TLS where `authority` is given."""

    def __init__(
        self,
        door: int | pathlib.Path,
        authority: pathlib.Path | None = None,
        name: str | None = None,
        seconds: float = 30,
        source: str = "",
    ) -> None:
        super().__init__("localhost" if authority else "127.0.0.1", 1, timeout=seconds)
        self.door, self.authority, self.name, self.seconds = door, authority, name, seconds
        self.source = source
        if isinstance(door, int):
            self.port = door

    def connect(self) -> None:
        if isinstance(self.door, pathlib.Path):
            self.sock = socket.socket(socket.AF_UNIX)
            self.sock.settimeout(self.seconds)
            self.sock.connect(str(self.door))
            return
        source = (self.source, 0) if self.source else None
        plain = socket.create_connection(("127.0.0.1", self.door), self.seconds, source)
        self.sock = plain
        if self.authority:
            keys = ssl.create_default_context(cafile=str(self.authority / "clients.pem"))
            if self.name:
                made = self.authority / self.name
                keys.load_cert_chain(f"{made}.crt", f"{made}.key")
            self.sock = keys.wrap_socket(plain, server_hostname="localhost")


class Caller:
    """Asks at one door, each request over a connection of its own."""

    def __init__(
        self, world: World, door: int | pathlib.Path, is_tls: bool = False, name: str | None = None
    ) -> None:
        self.door, self.name, self.seconds = door, name, 30.0
        self.authority = world.place / "authority" if is_tls else None

    def connection(self, source: str = "") -> Connection:
        """A connection that isn't opened yet."""
        return Connection(self.door, self.authority, self.name, self.seconds, source)

    def patient(self, seconds: float) -> Caller:
        """The caller, which waits for so many seconds for an answer."""
        self.seconds = seconds
        return self

    def ask(self, method: str, path: str, body: Any = None, **fields: str) -> Answer:
        """The answer; fields are named as `Sec_Fetch_Site`."""
        one = self.connection()
        try:
            return asked(one, method, path, body, **fields)
        except (ssl.SSLError, ConnectionError, http.client.HTTPException) as fault:
            return Answer(NO_CONNECTION, {}, str(fault))
        finally:
            one.close()


def asked(one: Connection, method: str, path: str, body: Any = None, **fields: str) -> Answer:
    """The answer over a connection."""
    if isinstance(body, dict):
        body = json.dumps(body)
    if body is None and method in ("POST", "PUT", "PATCH"):
        body = ""
    told = {name.replace("_", "-"): value for name, value in fields.items() if value != LEFT_OUT}
    if method == "POST" and "Content_Type" not in fields:
        told["Content-Type"] = "application/json"
    one.request(method, path, body, told)
    answer = one.getresponse()
    names = {name.lower(): value for name, value in answer.headers.items()}
    return Answer(answer.status, names, answer.read().decode())


def raw(door: int, data: bytes, *, seconds: float = 5, is_half: bool = False) -> bytes:
    """The bytes that come back for these from a port: of one answer, or all until the end."""
    got = b""
    with socket.create_connection(("127.0.0.1", door), 5) as peer:
        peer.settimeout(seconds)
        with contextlib.suppress(OSError):
            peer.sendall(data)
            if is_half:
                peer.shutdown(socket.SHUT_WR)
            while not is_whole(got):
                more = peer.recv(65536)
                if not more:
                    break
                got += more
    return got


def is_whole(got: bytes) -> bool:
    """Whether these bytes are an answer, behind a 100 where there is one."""
    if got.startswith(b"HTTP/1.1 100"):
        return is_whole(got.partition(b"\r\n\r\n")[2])
    head, found, body = got.partition(b"\r\n\r\n")
    length = re.search(rb"(?i)content-length: *([0-9]+)", head)
    return bool(found) and len(body) >= int(length[1] if length else 0)


def status(got: bytes) -> int:
    """The status of an answer's bytes; 0 of none."""
    found = re.search(rb"HTTP/1.1 ([2-5][0-9]{2})", got)
    return int(found[1]) if found else 0


def subscription(account: str) -> dict[str, Any]:
    """The member that names an account in a request."""
    return {"Subscription-Id-Type": 0, "Subscription-Id-Data": account}


def debit(account: str, session: str, units: int = 60, number: int = 0) -> dict[str, Any]:
    """A request that debits an account for some seconds of service 10."""
    service = {"Rating-Group": 10, "Requested-Service-Unit": {"CC-Time": units}}
    return {
        "Session-Id": session,
        "CC-Request-Type": 4,
        "CC-Request-Number": number,
        "Requested-Action": 0,
        "Subscription-Id": subscription(account),
        "Multiple-Services-Credit-Control": [service],
    }


def refund(account: str, session: str) -> dict[str, Any]:
    """A request that refunds 0.05 to an account."""
    value = {"Value-Digits": 5, "Exponent": -2}
    return {
        "Session-Id": session,
        "CC-Request-Type": 4,
        "CC-Request-Number": 0,
        "Requested-Action": 1,
        "Subscription-Id": subscription(account),
        "Requested-Service-Unit": {"CC-Money": {"Unit-Value": value, "Currency-Code": 978}},
    }


def opened(script: Caller, account: str, amount: int = 0) -> str:
    """An account that is open, with money."""
    script.ask("PUT", f"/accounts/{account}")
    if amount:
        body = {"Amount": amount, "Reference": f"first-{account}"}
        script.ask("POST", f"/accounts/{account}/credits", body)
    return account


def charges(script: Caller, account: str) -> int:
    """How many charges an account has this month."""
    month = time.strftime("%Y%m", time.gmtime())
    text = script.ask("GET", f"/accounts/{account}/statement/{month}").text
    return sum(1 for line in text.splitlines()[2:] if re.match(r"[0-9]{10} ", line))
