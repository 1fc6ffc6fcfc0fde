"""Requests to an office's doors from outside of its machine, many at once, as a gateway asks them: what
isn't answered is asked again."""
from __future__ import annotations

import concurrent.futures
import dataclasses
import http.client
import json
import socket
import threading
import time
from collections.abc import Callable

from month.machine import Machine
from month.model import Body
from month.stand import SOCKET

# What HAProxy answers of its own where the shard gave no answer, and a shard whose disk failed.
UNANSWERED = (429, 500, 502, 503, 504)
CALLERS, PATIENCE = 24, 900.0


@dataclasses.dataclass
class Asked:
    """A request, and its answer once it has one."""

    account: str
    method: str
    path: str
    body: Body | None
    answer: str = ""


class Doors:
    """The door for scripts, at which all callers ask."""

    def __init__(self, made: Machine) -> None:
        self.path = f"/proc/{made.first()}/root{SOCKET}"
        self.homes: dict[str, str] = {}  # the shard that answered last for an account
        self.again, self.done, self.lock = 0, 0, threading.Lock()

    def ask(self, requests: list[Asked], meanwhile: Callable[[], None] | None = None) -> None:
        """Asks everything, an account's requests in their order; `meanwhile` is called when a third
        has been answered."""
        begun, third = self.done, len(requests) // 3
        shares: list[list[Asked]] = [[] for _ in range(CALLERS)]
        for one in requests:
            shares[int(one.account) % CALLERS].append(one)
        with concurrent.futures.ThreadPoolExecutor(CALLERS) as pool:
            asked = [pool.submit(self.in_turn, share) for share in shares]
            while self.done - begun < third and not all(each.done() for each in asked):
                time.sleep(0.01)
            if meanwhile:
                meanwhile()
            for each in asked:
                each.result()

    def in_turn(self, requests: list[Asked]) -> None:
        """Asks one after another over a kept connection."""
        door = Door(self.path)
        for one in requests:
            one.answer = self.answered(door, one)
            with self.lock:
                self.done += 1
        door.close()

    def answered(self, door: Door, one: Asked) -> str:
        """The answer to a request, which is asked again until it has one."""
        body = json.dumps(one.body) if one.body else ""
        head = {"Content-Type": "application/json"} if body else {}
        end = time.monotonic() + PATIENCE
        while True:
            try:
                door.request(one.method, one.path, body, head)
                answer = door.getresponse()
                told = answer.read().decode().strip()
                if answer.status not in UNANSWERED:
                    self.homes[one.account] = answer.headers.get("Office-Shard", "")
                    return told
            except (OSError, http.client.HTTPException):
                door.close()
            assert time.monotonic() < end, f"{one} wasn't answered"
            with self.lock:
                self.again += 1
            time.sleep(0.2)


class Door(http.client.HTTPConnection):
    """A connection to a door that is a socket."""

    def __init__(self, path: str) -> None:
        super().__init__("office", timeout=120)
        self.socket_path = path

    def connect(self) -> None:
        """Opens it."""
        self.sock = socket.socket(socket.AF_UNIX)
        self.sock.settimeout(self.timeout)
        self.sock.connect(self.socket_path)
