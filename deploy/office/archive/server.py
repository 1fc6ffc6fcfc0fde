"""The service `office archive`: HTTP/1.1 at a UNIX socket that HAProxy alone reaches.

HAProxy asks `KEPT` whether a request is kept (200, else 404), and sends it once more where it is. A fault
is 503: then nobody else may answer it. `serve` runs until the process is stopped; a connection has one
request."""
from __future__ import annotations

import http.server
import pathlib
import socketserver
import sys
import threading
import traceback
from typing import Any

from office.agent.server import MOST, SECONDS, take_or_open
from office.archive.answers import Answer, Asked, Door
from office.archive.open_files import OpenFiles
from office.faults import Refused, Unread
from office.settings import Settings, read

KEPT = "Office-Kept"
UNABLE = '{"Result-Code":5012}'
NOT_KEPT = Answer(404, "{}", "")


def serve(settings: Settings, file: pathlib.Path) -> None:
    """Answers until it is stopped, by the office's file as it is at each request."""
    path = pathlib.Path(settings.archive.socket)
    with Server(settings, path, file) as made:
        print(f"listening at {path}", file=sys.stderr, flush=True)
        made.serve_forever(0.1)


class Server(socketserver.ThreadingMixIn, socketserver.UnixStreamServer):
    """A socket and its threads: systemd's, where the unit was started by one, else one of its own."""

    daemon_threads = False
    request_queue_size = 128

    def __init__(self, settings: Settings, path: pathlib.Path, file: pathlib.Path) -> None:
        self.file, self.lock, self.open_files = file, threading.Lock(), OpenFiles()
        super().__init__(str(path), Handler, bind_and_activate=False)
        take_or_open(self, settings, path)

    def door(self) -> Door:
        """The archives, by the office's file."""
        try:
            return Door(read(self.file), self.lock, self.open_files)
        except Unread as fault:
            raise Refused(str(fault)) from fault

    def handle_error(self, request: Any, client_address: Any) -> None:
        """A peer that went away is no fault; anything else is a mistake of ours."""
        if not isinstance(sys.exc_info()[1], (ConnectionError, TimeoutError)):
            traceback.print_exc()


class Handler(http.server.BaseHTTPRequestHandler):
    """One request and its answer."""

    server: Server
    protocol_version = "HTTP/1.1"
    timeout = SECONDS
    wbufsize = -1

    def do_GET(self) -> None:
        """Answers a GET."""
        self.answer()

    def do_POST(self) -> None:
        """Answers a POST."""
        self.answer()

    def answer(self) -> None:
        """Reads the request, and writes the answer."""
        length = self.headers.get("Content-Length", "0")
        is_right = length.isascii() and length.isdigit() and int(length) <= MOST
        asked = Asked(self.command, self.path, self.rfile.read(int(length)) if is_right else b"")
        try:
            door = self.server.door()
            if self.headers.get(KEPT):
                told = Answer(200 if door.keeps(asked) else 404, "{}", "")
            else:
                told = door.answer(asked) or NOT_KEPT
        except Refused as fault:
            print(f"office: {asked.method} {asked.path}: {fault}", file=sys.stderr, flush=True)
            told = Answer(503, UNABLE, "")
        self.write(told)

    def write(self, told: Answer) -> None:
        """Writes an answer."""
        content = told.text.encode()
        self.send_response_only(told.status)
        self.send_header("Content-Type", told.kind)
        self.send_header("Content-Length", str(len(content)))
        for name, value in (("Office-Shard", told.shard), ("Office-Archive", told.archive)):
            if value:
                self.send_header(name, value)
        self.send_header("Connection", "close")
        self.end_headers()
        self.wfile.write(content)

    def address_string(self) -> str:
        """A socket of the file system has no address."""
        return "doors"

    def log_message(self, format: str, *args: Any) -> None:
        """The doors' log has a line of each answer."""
