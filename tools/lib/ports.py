"""Ports of 127.0.0.1 for the programs that the scripts start, many scripts side by side.

    python3 tools/lib/ports.py

prints a port. Scripts that run at once are given different ones: a file of the user's says which
was given last, and a port comes again after all others from 20000 to 31999. None of these is given
to the near end of a connection by the machine."""
import contextlib
import fcntl
import os
import pathlib
import socket
import tempfile
from collections.abc import Iterable

FIRST, END = 20000, 32000
GIVEN = pathlib.Path(tempfile.gettempdir()) / f"ocs-ports-{os.getuid()}"


def are_free(ports: Iterable[int]) -> bool:
    """Whether nobody listens on any of these ports."""
    with contextlib.ExitStack() as opened:
        try:
            for port in ports:
                listener = opened.enter_context(socket.socket())
                listener.setsockopt(socket.SOL_SOCKET, socket.SO_REUSEADDR, 1)
                listener.bind(("127.0.0.1", port))
        except OSError:
            return False
    return True


def free_ports(count: int = 1) -> int:
    """The first of so many ports in a row that nobody listens on, past those that were given."""
    with open(GIVEN, "a+", encoding="ascii") as file:
        fcntl.flock(file, fcntl.LOCK_EX)
        file.seek(0)
        text = file.read()
        last = int(text) if text.isascii() and text.isdigit() else FIRST
        places = END - FIRST
        for past in range(places):
            first = FIRST + (last - FIRST + past) % places
            ports = range(first, first + count)
            if ports[-1] < END and are_free(ports):
                file.truncate(0)
                file.write(str(first + count))
                return first
    raise OSError("no free ports")


if __name__ == "__main__":
    print(free_ports())
