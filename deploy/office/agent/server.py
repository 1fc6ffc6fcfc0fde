"""The agent's server: JSON over HTTP/1.1 at a UNIX socket, a thread a request.

`serve` runs until the process is stopped, and lets what is under way end. A connection has one
request: the doors open one for each, so none ends while another request is on its way over it."""
from __future__ import annotations

import contextlib
import errno
import http.server
import os
import pathlib
import shutil
import socket
import socketserver
import sys
import traceback
from typing import Any

from office.agent import answers
from office.agent.asked import Asked, Office
from office.agent.kept import Kept
from office.faults import Refused
from office.scratch import scratch
from office.settings import Settings

# Bytes of a body, as the doors bound it; seconds for it to come.
MOST, SECONDS = 65_536, 30
# The first socket that systemd hands on (sd_listen_fds).
GIVEN = 3


def serve(settings: Settings) -> None:
    """Answers until it is stopped."""
    path = pathlib.Path(settings.agent.socket)
    with scratch(pathlib.Path(settings.office.databases), ".agent-") as folder:
        office = Office(settings, Kept(settings, folder))
        with Server(path, office) as server:
            print(f"listening at {path}", file=sys.stderr, flush=True)
            server.serve_forever(0.1)


class Server(socketserver.ThreadingMixIn, socketserver.UnixStreamServer):
    """A socket and its threads: systemd's socket, where the unit was started by one, which keeps
    requests while the agent starts; else one of its own."""

    daemon_threads = False
    request_queue_size = 128

    def __init__(self, path: pathlib.Path, office: Office) -> None:
        self.office = office
        super().__init__(str(path), Handler, bind_and_activate=False)
        take_or_open(self, office.settings, path)

    def handle_error(self, request: Any, client_address: Any) -> None:
        """A peer that went away is no fault; anything else is a mistake of ours."""
        if not isinstance(sys.exc_info()[1], (ConnectionError, TimeoutError)):
            traceback.print_exc()


def take_or_open(
    server: socketserver.UnixStreamServer, settings: Settings, path: pathlib.Path
) -> None:
    """Takes systemd's socket, where the unit was started by one, which keeps requests while the
    process starts; else opens one that HAProxy's group may use."""
    if os.environ.get("LISTEN_PID") == str(os.getpid()):
        server.socket.close()
        server.socket = socket.socket(fileno=GIVEN)
        return
    make_way(path)
    before = os.umask(0o117)
    try:
        server.server_bind()
        server.server_activate()
        give(settings, path)
    except OSError as fault:
        raise Refused(f"{path}: {fault.strerror or fault}") from fault
    finally:
        os.umask(before)


class Handler(http.server.BaseHTTPRequestHandler):
    """One request and its answer."""

    server: Server
    protocol_version, server_version, sys_version = "HTTP/1.1", "office-agent", ""
    timeout = SECONDS
    wbufsize = -1

    def do_GET(self) -> None:
        """Answers a GET."""
        self.answer()

    def do_POST(self) -> None:
        """Answers a POST."""
        self.answer()

    def answer(self) -> None:
        """Reads the request, and writes the answer."""
        length = self.headers.get("Content-Length", "0")
        is_right = length.isascii() and length.isdigit() and int(length) <= MOST
        body = self.rfile.read(int(length)) if is_right else b""
        fields = self.headers
        asked = Asked(
            self.command,
            self.path,
            body,
            fields.get("Office-Caller", ""),
            fields.get("Office-May", ""),
            fields.get("X-Request-Id", ""),
        )
        status, text = answers.answer(self.server.office, asked)
        content = text.encode()
        self.send_response(status)
        self.send_header("Content-Type", "application/json")
        self.send_header("Content-Length", str(len(content)))
        self.send_header("Connection", "close")
        self.end_headers()
        self.wfile.write(content)

    def address_string(self) -> str:
        """A socket of the file system has no address."""
        return "doors"

    def log_message(self, format: str, *args: Any) -> None:
        """The agent's own lines say more (`answers`)."""


def make_way(path: pathlib.Path) -> None:
    """Removes a socket that nobody listens at any more; refused where an agent does."""
    with socket.socket(socket.AF_UNIX) as peer:
        try:
            peer.connect(str(path))
        except OSError as fault:
            if fault.errno == errno.ECONNREFUSED:
                path.unlink(missing_ok=True)
            return
    raise Refused(f"somebody listens at {path} already")


def give(settings: Settings, path: pathlib.Path) -> None:
    """Lets HAProxy's group open the socket, where the command may say so."""
    user = settings.haproxy.user
    if os.geteuid() or not user:
        return
    with contextlib.suppress(LookupError):
        shutil.chown(path, group=user)
        return
    raise Refused(f"there is no group {user} on this machine (haproxy: user)")
