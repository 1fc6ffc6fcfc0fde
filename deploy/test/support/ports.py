"""Ports of 127.0.0.1 for the processes of tests, also for runs side by side.

They are given by the same file as those of tools/lib/ports.py, so that both keep out of each other's
way."""
from __future__ import annotations

import contextlib
import fcntl
import os
import pathlib
import socket
import tempfile

FIRST, END = 20000, 32000
GIVEN = pathlib.Path(tempfile.gettempdir()) / f"ocs-ports-{os.getuid()}"


def free(count: int = 1) -> int:
    """The first of so many ports in a row that nobody listens on, past those that were given."""
    with open(GIVEN, "a+", encoding="ascii") as file:
        fcntl.flock(file, fcntl.LOCK_EX)
        file.seek(0)
        text = file.read()
        last = int(text) if text.isascii() and text.isdigit() else FIRST
        for past in range(END - FIRST):
            first = FIRST + (last - FIRST + past) % (END - FIRST)
            if first + count <= END and are_free(range(first, first + count)):
                file.truncate(0)
                file.write(str(first + count))
                return first
    raise OSError("no free ports")


def are_free(ports: range) -> bool:
    """Whether nobody listens on any of these ports."""
    with contextlib.ExitStack() as opened:
        try:
            for port in ports:
                listener = opened.enter_context(socket.socket())
                listener.setsockopt(socket.SOL_SOCKET, socket.SO_REUSEADDR, 1)
                listener.bind(("127.0.0.1", port))
        except OSError:
            return False
    return True


def listens(port: int) -> bool:
    """Whether somebody listens on this port of 127.0.0.1; no connection is made."""
    wanted = f"0100007F:{port:04X}"
    rows = pathlib.Path("/proc/net/tcp").read_text(encoding="ascii").splitlines()[1:]
    return any(row.split()[1] == wanted and row.split()[3] == "0A" for row in rows)
