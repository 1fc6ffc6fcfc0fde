"""Machines of a test: Debian's own kernel as a program (user-mode-linux), with disks, cables and a
power switch.

Each has three cards in one namespace of networks: `g` to the gateways, `l` to the other machines, `d`
to the tests. Its disks are files; what it writes to its own first disk is a file over the image. A
power cut kills all its processes at once."""
from __future__ import annotations

import contextlib
import ctypes
import http.client
import os
import pathlib
import re
import signal
import socket
import ssl
import subprocess
from collections.abc import Iterator

from support import prompt
from support.served import Layout
from support.waiting import until
from support.world import done, ran

# By the kernel's numbers of the cards: their bridges, in this order.
CARDS = "gld"
NEW_NETWORK = 0x40000000
# The kernel keeps a machine's memory in a file of this folder.
MEMORIES = "/dev/shm"
# A machine's first process, and its memory.
INITS = {"small": ("/usr/local/sbin/small", "256M"), "systemd": ("/sbin/init", "512M")}
DOOR = 700
# A gateway has the kernel ask whether a machine is there still: one that died ends no connection.
ASKED_WHETHER_THERE = {
    (socket.SOL_SOCKET, socket.SO_KEEPALIVE): 1,
    (socket.IPPROTO_TCP, socket.TCP_KEEPIDLE): 3,
    (socket.IPPROTO_TCP, socket.TCP_KEEPINTVL): 1,
    (socket.IPPROTO_TCP, socket.TCP_KEEPCNT): 5,
}
# A process ends with its test, whatever becomes of that; and with it all that it started.
WITH_US = ["setpriv", "--pdeathsig", "KILL"]
TOGETHER = ["unshare", "--pid", "--fork", "--kill-child", "--mount-proc"]
# What shows why a machine doesn't come on: its load, its mirrors, its processes and where those that
# can't be ended wait, its kernel's last lines.
LOOK = """
cat /proc/loadavg /proc/drbd
ps -eo pid,stat,time,wchan:24,args
for one in $(ps -eo pid=,stat= | awk '$2 ~ /D/ { print $1 }'); do echo "$one:"; cat "/proc/$one/stack"; done
dmesg | tail -n 60
"""
# Where a machine has the folder that it shares with the tests.
SHARED = "/mnt"


class Network:
    """A namespace with a bridge for each card, and a tap for each machine's."""

    def __init__(self, machines: int) -> None:
        self.name = f"ocs-test-{os.getpid()}"
        forget()
        done("ip", "netns", "add", self.name)
        self.sh("ip link set lo up")
        for at, card in enumerate(CARDS):
            bridge = f"bridge-{card}"
            self.sh(f"ip link add name {bridge} type bridge && ip link set {bridge} up")
            self.sh(f"ip address add 10.5{at}.0.254/24 dev {bridge}")
            for machine in range(1, machines + 1):
                tap = f"{card}{machine}"
                self.sh(f"ip tuntap add {tap} mode tap && ip link set {tap} master {bridge} up")

    @property
    def words(self) -> list[str]:
        """What is before the words of a process that is to be in here."""
        return ["ip", "netns", "exec", self.name]

    def sh(self, lines: str) -> str:
        """What lines of a shell print in here; their status has to be 0."""
        return done(*self.words, "sh", "-c", lines)

    @contextlib.contextmanager
    def inside(self) -> Iterator[None]:
        """This thread is in here meanwhile: a socket that it makes stays in here."""
        libc = ctypes.CDLL(None, use_errno=True)
        with open(f"/proc/thread-self/ns/net") as before, open(f"/run/netns/{self.name}") as here:
            assert libc.setns(here.fileno(), NEW_NETWORK) == 0
            try:
                yield
            finally:
                assert libc.setns(before.fileno(), NEW_NETWORK) == 0

    def dial(self, address: str, port: int, seconds: float) -> socket.socket:
        """A connection from in here."""
        with self.inside():
            peer = socket.create_connection((address, port), seconds)
        peer.setsockopt(socket.IPPROTO_TCP, socket.TCP_NODELAY, 1)
        return peer

    def connect(self, address: str, port: int, seconds: float) -> http.client.HTTPConnection:
        """A connection for requests."""
        return Inside(self, address, port, seconds)

    def cable(self, card: str, machine: int, is_in: bool) -> None:
        """A machine's cable is pulled out of its bridge, or put back. (A tap that is down gives the
        machine's driver an error, after which it reads no more.)"""
        where = f"master bridge-{card}" if is_in else "nomaster"
        self.sh(f"ip link set {card}{machine} {where}")

    def end(self) -> None:
        """Takes it away."""
        ran("ip", "netns", "delete", self.name)


def forget() -> None:
    """Takes away the namespaces of tests that were killed."""
    for name in re.findall(r"ocs-test-\d+", done("ip", "netns", "list")):
        if not pathlib.Path("/proc", name.rpartition("-")[2]).exists():
            ran("ip", "netns", "delete", name)


class Inside(http.client.HTTPConnection):
    """A connection from inside of a namespace to an address; with a `context` over TLS, and `host` is
    the name that the other side has to show."""

    def __init__(
        self,
        network: Network,
        address: str,
        port: int,
        seconds: float,
        host: str = "",
        context: ssl.SSLContext | None = None,
    ) -> None:
        super().__init__(host or address, port, timeout=seconds)
        self.network, self.address, self.seconds = network, address, seconds
        self.context = context

    def connect(self) -> None:
        peer = self.network.dial(self.address, self.port, self.seconds)
        for option, value in ASKED_WHETHER_THERE.items():
            peer.setsockopt(*option, value)
        if self.context:
            self.sock = self.context.wrap_socket(peer, server_hostname=self.host)
        else:
            self.sock = peer


class Machine:
    """A machine, which has power from `start` to `cut`."""

    def __init__(
        self, network: Network, image: pathlib.Path, place: pathlib.Path, number: int
    ) -> None:
        self.network, self.image, self.number = network, image, number
        self.place, self.shared = place / f"m{number}", place / f"m{number}/shared"
        self.shared.mkdir(parents=True)
        self.layout = Layout(f"{SHARED}/ocs", "/var/lib/ocs/01", 8101, SHARED)
        self.process: subprocess.Popen[bytes] | None = None

    @property
    def name(self) -> str:
        """What `uname -n` prints in it."""
        return f"m{self.number}"

    def address(self, card: str = "g") -> str:
        """Its address at a card."""
        return f"10.5{CARDS.index(card)}.0.1{self.number}"

    def mac(self, card: int) -> str:
        """A card's own address; the kernel's are by chance, and machines that start together may
        get the same."""
        return f"02:00:00:00:0{card}:0{self.number}"

    def start(self, init: str, disk: str = "") -> None:
        """It gets power, with a disk beside its first: /dev/nbd0, at an address and a port."""
        (self.shared / "up").unlink(missing_ok=True)
        words = [*prompt.words(self.number), *WITH_US, *self.network.words, *TOGETHER]
        words += ["linux.uml"]
        first, memory = INITS[init]
        words += [f"mem={memory}", "root=/dev/ubda", "rw", f"init={first}", "con=null"]
        # Without 512 terminals, for each of which a boot starts a process.
        words += ["con0=null,fd:1", "pty.legacy_count=0", f"uml_dir={self.place}", "umid=uml"]
        words += [f"machine={self.number}", f"shared={self.shared}"]
        words += [f"ubda={self.place}/root.cow,{self.image}"]
        words += [f"disk={disk}"] if disk else []
        words += [
            f"vec{at}:transport=tap,ifname={card}{self.number},mac={self.mac(at)},gro=1"
            for at, card in enumerate(CARDS)
        ]
        with (self.place / "console").open("ab") as console:
            self.process = subprocess.Popen(
                words,
                stdin=subprocess.DEVNULL,
                stdout=console,
                stderr=subprocess.STDOUT,
                env=os.environ | {"TMPDIR": MEMORIES},
            )

    def wait(self, seconds: float = 300) -> None:
        """Waits until it carries out lines."""
        try:
            until(self.is_up, f"{self.name} up", seconds)
        except TimeoutError as fault:
            raise TimeoutError(f"{fault}\n{self.console()}") from fault

    def is_up(self) -> bool:
        """Whether it carries out lines."""
        assert self.process and self.process.poll() is None, self.console()
        return (self.shared / "up").exists()

    def console(self) -> str:
        """The last lines of its console."""
        text = (self.place / "console").read_text(encoding="utf-8", errors="replace")
        return "\n".join(text.splitlines()[-30:])

    def state(self) -> str:
        """What it does, as far as it can say, and the last lines of its console."""
        with contextlib.suppress(OSError):
            return self.told(LOOK, 120)[1].decode(errors="replace") + self.console()
        return self.console()

    def cut(self) -> None:
        """Its power is cut."""
        if not self.process:
            return
        # The first process of its namespace of processes takes all of them along.
        for child in ran("pgrep", "--parent", self.process.pid).stdout.split():
            os.kill(int(child), signal.SIGKILL)
        self.process.wait()
        self.process = None

    def told(self, lines: str, seconds: float) -> tuple[int, bytes]:
        """The status of lines of bash, and what they print."""
        with self.network.dial(self.address("d"), DOOR, seconds) as peer:
            peer.sendall(lines.encode() + b"\n")
            peer.shutdown(socket.SHUT_WR)
            got = b"".join(iter(lambda: peer.recv(1 << 16), b""))
        printed, _, status = got.rpartition(b"\nstatus ")
        if not status.isdigit():
            raise ConnectionError(f"{self.name}: no status of {lines!r}")
        return int(status), printed

    def sh(self, lines: str, seconds: float = 600) -> str:
        """What lines of bash print in it; their status has to be 0. Where they don't end in time, what
        the machine does meanwhile is told."""
        try:
            status, printed = self.told(lines, seconds)
        except TimeoutError as fault:
            told = f"{self.name}: no end within {seconds:.0f} s of {lines!r}"
            raise TimeoutError(f"{told}\n{self.state()}") from fault
        text = printed.decode(errors="replace")
        assert status == 0, (self.name, lines, text)
        return text

    def file(self, path: str) -> bytes:
        """The bytes of a file in it; empty where there is none."""
        copy = self.shared / "file"
        copy.write_bytes(b"")
        self.told(f"cp {path} {SHARED}/file", 600)
        return copy.read_bytes()
