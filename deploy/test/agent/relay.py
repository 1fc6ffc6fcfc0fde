"""A socket between the agent and the scripts' door, at which the agent is killed before or after one of
its requests."""
from __future__ import annotations

import pathlib
import re
import socket
import threading
from collections.abc import Callable

from support.callers import is_whole


class Relay:
    """Hands requests on, one connection after another; `stop` is called at the one with a number."""

    def __init__(self, path: pathlib.Path, door: pathlib.Path, stop: Callable[[], None]) -> None:
        self.door, self.stop = door, stop
        self.count, self.at, self.is_before = 0, 0, False
        self.asked: list[str] = []
        self.listener = socket.socket(socket.AF_UNIX)
        self.listener.bind(str(path))
        self.listener.listen(16)
        self.thread = threading.Thread(target=self.run, daemon=True)
        self.thread.start()

    def set(self, at: int, is_before: bool) -> None:
        """The request at which the agent is killed; 0: none."""
        self.count, self.at, self.is_before = 0, at, is_before
        self.asked.clear()

    def run(self) -> None:
        """Takes connections until the listener is closed."""
        while True:
            try:
                peer, _ = self.listener.accept()
            except OSError:
                return
            threading.Thread(target=self.serve, args=(peer,), daemon=True).start()

    def serve(self, peer: socket.socket) -> None:
        """Hands on the requests of one connection."""
        with peer:
            while request := whole_request(peer):
                self.count += 1
                self.asked.append(request.split(b" HTTP", 1)[0].decode())
                is_here = self.count == self.at
                if is_here and self.is_before:
                    self.stop()
                    return
                answer = self.handed_on(request)
                if is_here:
                    self.stop()
                    return
                peer.sendall(answer)

    def handed_on(self, request: bytes) -> bytes:
        """The door's answer."""
        with socket.socket(socket.AF_UNIX) as door:
            door.settimeout(60)
            door.connect(str(self.door))
            door.sendall(request)
            got = b""
            while not is_whole(got):
                more = door.recv(65536)
                if not more:
                    break
                got += more
            return got

    def close(self) -> None:
        """Takes no more connections."""
        self.listener.close()


def whole_request(peer: socket.socket) -> bytes:
    """A request with its body; empty where the peer has gone."""
    got = b""
    while True:
        head, found, body = got.partition(b"\r\n\r\n")
        length = re.search(rb"(?i)content-length: *([0-9]+)", head)
        if found and len(body) >= int(length[1] if length else 0):
            return got
        try:
            more = peer.recv(65536)
        except OSError:
            return b""
        if not more:
            return b""
        got += more
