"""This machine with a disk whose power can be cut.

The disk (`volatile`) is a file by nbdfuse, behind a loop device. Once it has no power nothing gets
to it, while the kernel and the program go on for a moment; then the program is killed, and the file
system, which has no disk, is thrown away with all that it kept in memory."""
from __future__ import annotations

import dataclasses
import pathlib
import signal
import subprocess

from support import ports
from support.served import BOOKS, Layout
from support.turns import Turns
from support.volatile import Disk
from support.waiting import until
from support.world import done, program, ran


class Here:
    """The disk's way into this machine's kernel, and the folder where the shard is."""

    def __init__(self, place: pathlib.Path) -> None:
        self.folder, self.fuse = place, place / "fuse"
        self.process: subprocess.Popen[bytes] | None = None
        self.loop = ""
        mounted = place / "mounted"
        mounted.mkdir()
        self.fuse.mkdir()
        self.layout = Layout(program(), str(mounted), 0, str(place))
        self.turns = Turns(place)
        for at, book in enumerate(BOOKS):
            (place / f"book{at}.toml").write_text(book)

    @property
    def host(self) -> Here:
        """Where the shard is served."""
        return self

    @property
    def where(self) -> str:
        """Where the shard is asked."""
        return f"127.0.0.1:{self.layout.port}"

    def disk(self, file: pathlib.Path) -> Disk:
        """A disk that this machine may have."""
        return Disk(file)

    def start(self, disk: Disk) -> str:
        """The disk gets power; the device of the kernel that it is. The shard has a port of its own
        each time."""
        self.layout = dataclasses.replace(self.layout, port=ports.free())
        source = disk.start().removeprefix("nbd:")
        words = ["nbdfuse", str(self.fuse / "disk"), f"nbd+unix:///?socket={source}"]
        (self.fuse / "disk").touch()
        # It complains and ends once the disk has no power.
        self.process = subprocess.Popen(words, stderr=subprocess.DEVNULL)
        until(lambda: ran("mountpoint", "-q", self.fuse / "disk").returncode == 0, "nbdfuse", 300)
        self.loop = done("losetup", "--find", "--show", self.fuse / "disk").strip()
        return self.loop

    def cut(self, disk: Disk, fate: str, seed: int) -> int:
        """The disk loses its power while the program and the kernel go on: what is under way isn't
        on it. How many writes it hadn't flushed."""
        waiting = disk.cut(fate, seed)
        self.end()
        return waiting

    def end(self) -> None:
        """What is left of a disk without power is thrown away: program, file system, devices."""
        process = self.folder / "shard.pid"
        if process.exists():
            ran("kill", f"-{signal.SIGKILL.value}", process.read_text().strip())
            process.unlink()
        until(self.is_unmounted, "the end of the file system", 300)
        if self.loop:
            done("losetup", "--detach", self.loop)
            self.loop = ""
        if self.process:
            ran("umount", "--lazy", self.fuse / "disk")
            self.process.terminate()
            self.process.wait()
            self.process = None

    def is_unmounted(self) -> bool:
        """Unmounts the file system; whether it isn't mounted any more. The kernel's list is asked:
        a file system that has lost its disk looks like none."""
        ran("umount", self.layout.place)
        mounts = pathlib.Path("/proc/self/mounts").read_text().splitlines()
        return all(line.split()[1] != self.layout.place for line in mounts)

    def sh(self, lines: str, seconds: float = 600) -> str:
        """What lines of bash print; their status has to be 0."""
        told = ran("bash", "-c", lines, timeout=seconds)
        assert told.returncode == 0, (lines, told.stdout, told.stderr)
        return told.stdout

    def file(self, path: str) -> bytes:
        """The bytes of a file; empty where there is none."""
        one = pathlib.Path(path)
        return one.read_bytes() if one.exists() else b""
