"""In systemd's place: what the agent asks of `systemctl` and `systemd-run` for a bar, over the shards of a
test's office. Beside the real ones the page is tried by `test_systemd`."""
from __future__ import annotations

import socketserver
import sys
import threading

from support.world import World

# Hands its words on, and prints what comes back.
WORD = """#!{python} -IS
import socket, sys
with socket.socket(socket.AF_UNIX) as peer:
    peer.connect({place!r})
    peer.sendall("\\0".join(sys.argv[1:]).encode() + b"\\n")
    sys.stdout.write(peer.makefile().read())
"""


class Words(socketserver.StreamRequestHandler):
    """Answers one command."""

    def handle(self) -> None:
        words = self.rfile.readline().decode().rstrip("\n").split("\0")
        assert isinstance(self.server, Units)
        self.wfile.write(told(self.server.world, words).encode())


class Units(socketserver.ThreadingMixIn, socketserver.UnixStreamServer):
    """The units of an office, as commands in a folder."""

    daemon_threads = True

    def __init__(self, world: World) -> None:
        self.world, place, self.folder = world, world.place / "units.sock", world.place / "units"
        super().__init__(str(place), Words)
        self.folder.mkdir()
        for name in ("systemctl", "systemd-run"):
            command = self.folder / name
            command.write_text(WORD.format(python=sys.executable, place=str(place)))
            command.chmod(0o755)
        threading.Thread(target=self.serve_forever, daemon=True).start()

    def end(self) -> None:
        """Takes no more commands."""
        self.shutdown()
        self.server_close()


def told(world: World, words: list[str]) -> str:
    """What a command prints: what a shard's unit is; it stops and starts those of shards alone."""
    name, _, number = words[-1].partition("@")
    if name != "ocs":
        return ""
    at = int(number)
    if words[0] == "stop":
        world.kill(at)
    elif words[0] == "start":
        world.start(at)
    else:
        is_up = world.shards[at].poll() is None
        states = {"ActiveState": ("inactive", "active"), "SubState": ("dead", "running")}
        return states[words[2]][is_up] + "\n"
    return ""
