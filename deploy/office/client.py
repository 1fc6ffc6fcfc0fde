"""The one client of the doors: requests to the office over a kept connection.

Every word that asks the office calls `Client.ask`, by the scripts' UNIX socket, which is the only
door at which a shard may be named. Each request is one round trip; `patience` bounds how long the
same bytes are sent again where no answer comes."""
from __future__ import annotations

import contextlib
import dataclasses
import functools
import http.client
import json
import socket
import time
from typing import Any

from office.faults import TurnedAway, Unanswered
from office.settings import Settings

Body = dict[str, Any]
AGAIN = 0.2
# Answers of HAProxy for want of one: the request may be asked again, and may have been accepted.
NO_ANSWER = (408, 500, 502, 503, 504)


@dataclasses.dataclass(frozen=True)
class Answer:
    """An answer of a shard: the program's, whether it accepted the request or not."""

    status: int
    shard: str  # its number, 01 to 99
    text: str
    request: str  # the id under which the doors' log has it
    archive: str = ""  # the name of the archive that has it, where it is one of before a carry

    @functools.cached_property
    def body(self) -> Body:
        """The JSON object of the answer."""
        told = json.loads(self.text)
        if not isinstance(told, dict):
            raise TurnedAway("an answer", self.status, self.text)
        return told

    def compact(self) -> str:
        """The answer as the program writes it: its members by name."""
        return compact(self.body)


def compact(told: Body) -> str:
    """An object as the program writes it."""
    return json.dumps(told, separators=(",", ":"), sort_keys=True)


class SocketConnection(http.client.HTTPConnection):
    """HTTP over a socket of the file system."""

    def __init__(self, path: str, seconds: float) -> None:
        super().__init__("office", timeout=seconds)
        self.path, self.seconds = path, seconds

    def connect(self) -> None:
        self.sock = socket.socket(socket.AF_UNIX)
        self.sock.settimeout(self.seconds)
        self.sock.connect(self.path)


class Client:
    """A connection to the scripts' door, made anew when it ends. For one thread."""

    def __init__(self, settings: Settings, *, patience: float = 0.0) -> None:
        self.settings, waits = settings, settings.waits
        seconds = waits.request + waits.start + waits.queue + waits.answer + 5
        self.path, self.patience = settings.scripts(), patience
        self.connection = SocketConnection(self.path, seconds)

    def ask(self, method: str, path: str, body: Body | None = None, *, shard: str = "") -> Answer:
        """The answer of the account's shard, or of the one that is named.

        Raises `Unanswered` where none comes within `patience` seconds of tries, and `TurnedAway`
        where a door or the program takes it for no request. A refusal of the program (`O2`, 5030)
        is an answer."""
        fields = {"Office-Shard": shard} if shard else {}
        text = None
        if method == "POST" and body is not None:
            text = json.dumps(body, separators=(",", ":")).encode()
            fields["Content-Type"] = "application/json"
        end = time.monotonic() + self.patience
        while True:
            try:
                return self.once(method, path, text, fields)
            except Unanswered:
                if time.monotonic() >= end:
                    raise
            time.sleep(AGAIN)

    def once(self, method: str, path: str, text: bytes | None, fields: dict[str, str]) -> Answer:
        """The answer to one try."""
        asked = f"{method} {path}"
        is_kept = self.connection.sock is not None
        try:
            self.connection.request(method, path, text, fields)
            answer = self.connection.getresponse()
            told = answer.read().decode()
        except (OSError, ValueError, http.client.HTTPException) as fault:
            self.connection.close()
            if is_kept and isinstance(fault, (BrokenPipeError, http.client.RemoteDisconnected)):
                return self.once(method, path, text, fields)
            raise Unanswered(f"{asked} at {self.path}: {fault}") from fault
        if answer.status in NO_ANSWER:
            raise Unanswered(f"{asked}: {answer.status} {told.strip()[:200]}")
        if answer.status != 200 and not (answer.status == 400 and "Result-Code" in told):
            raise TurnedAway(asked, answer.status, told)
        names = ("Office-Shard", "X-Request-Id", "Office-Archive")
        shard, request, archive = (answer.getheader(name, "") for name in names)
        return Answer(answer.status, shard, told, request, archive)

    def close(self) -> None:
        """Ends the connection."""
        with contextlib.suppress(OSError):
            self.connection.close()

    def __enter__(self) -> Client:
        return self

    def __exit__(self, *_: object) -> None:
        self.close()
