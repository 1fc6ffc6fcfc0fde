"""A copy of this machine in which systemd is the first process, for tests of words that stop units.

The copy is an overlay over the machine's files, with namespaces of its own for processes, network
and mounts: nothing is left on the machine, and no port of it is used. `machine()` takes half a
second, and needs root."""
from __future__ import annotations

import contextlib
import itertools
import os
import pathlib
import subprocess
import tempfile
import time
from collections.abc import Callable, Iterator

DEPLOY = pathlib.Path(__file__).resolve().parents[2]
TOP = DEPLOY.parent
FOLDER = "/srv/ocs"
CLEAN = [
    "env",
    "-i",
    "PATH=/srv/ocs/deploy/bin:/usr/local/sbin:/usr/local/bin:/usr/sbin:/usr/bin:/sbin:/bin",
    "HOME=/root",
    "LC_ALL=C.UTF-8",
]
# Run by bash in new namespaces: PLACE TOP PROGRAM FOLDER.
MACHINE = r"""
set -eu
place=$1 top=$2 program=$3 folder=$4
mount --make-rprivate /
mount -t tmpfs tmpfs "$place"
mkdir "$place"/{upper,work,root}
cd "$place"
mount -t overlay overlay -o lowerdir=/,upperdir=upper,workdir=work root
cd root
mkdir -p ".$folder" ./usr/local/bin
cp -r "$top/deploy" "$top/examples" ".$folder/"
install -m 755 "$program" ./usr/local/bin/ocs
mount -t proc proc proc
mount --bind proc/sys proc/sys
mount -o remount,ro,bind proc/sys
mount -t sysfs -o ro sysfs sys
mount -t cgroup2 cgroup2 sys/fs/cgroup
mount -t tmpfs tmpfs run
mount -t tmpfs tmpfs tmp
mount -t tmpfs -o mode=755 tmpfs dev
for each in null zero full random urandom tty; do
    touch "dev/$each"
    mount --bind "/dev/$each" "dev/$each"
done
mkdir dev/pts dev/shm old
mount -t devpts -o newinstance,ptmxmode=666 devpts dev/pts
ln -s pts/ptmx dev/ptmx
mount -t tmpfs tmpfs dev/shm
ip link set lo up
pivot_root . old
umount -l /old
exec env -i container=ocs /lib/systemd/systemd --unit=sysinit.target --show-status=false
"""
JOIN = 'echo $$ > "$1/cgroup.procs"; shift; exec "$@"'
FLAGS = ["--mount", "--pid", "--fork", "--net", "--uts", "--ipc", "--cgroup", "--kill-child"]
# A machine with other work beside takes its time.
SECONDS = 180
NUMBERS = itertools.count(1)


class Machine:
    """A copy of this machine, in which systemd runs."""

    def __init__(self, place: pathlib.Path) -> None:
        mounts = pathlib.Path("/proc/mounts").read_text(encoding="utf-8").splitlines()
        groups = [row.split()[1] for row in mounts if row.split()[2] == "cgroup2"]
        if not groups:
            raise OSError("no cgroup2")
        self.group = pathlib.Path(groups[0]) / f"ocs-month-{os.getpid()}-{next(NUMBERS)}"
        self.group.mkdir()
        # It ends with the test, however that ends.
        words = ["setpriv", "--pdeathsig", "KILL", "bash", "-c", JOIN, "bash", self.group]
        words += ["unshare", *FLAGS, "bash", "-c", MACHINE]
        words += ["bash", place, TOP, program(), FOLDER]
        self.environment: list[str] = []
        self.errors = place.parent / "errors"
        with self.errors.open("wb") as errors:
            self.process = subprocess.Popen(
                list(map(str, words)), stdin=subprocess.DEVNULL, stdout=errors, stderr=errors
            )

    def first(self) -> str:
        """The process that is the first in there; empty where there is none yet."""
        path = pathlib.Path(f"/proc/{self.process.pid}/task/{self.process.pid}/children")
        told = path.read_text(encoding="ascii").split() if path.exists() else []
        return told[0] if told else ""

    def words(self, line: str) -> list[str]:
        """Words that run a line of bash in there, in the fresh folder."""
        enter = ["nsenter", "-t", self.first(), "-m", "-p", "-n", "-u", "-i", "-C"]
        return [*enter, *CLEAN, *self.environment, "bash", "-c", f"cd {FOLDER} && {{ {line}\n}}"]

    def run(self, line: str, status: int | None = 0) -> subprocess.CompletedProcess[str]:
        """What bash gives for a line; a status that isn't the wanted one fails the test."""
        told = subprocess.run(
            self.words(line),
            stdin=subprocess.DEVNULL,
            capture_output=True,
            text=True,
            timeout=600,
            check=False,
        )
        if status is not None:
            assert (
                told.returncode == status
            ), f"{line}: {told.returncode} {told.stdout}{told.stderr}"
        return told

    def started(self, line: str) -> subprocess.Popen[str]:
        """A line of bash that goes on meanwhile, its output to be read together."""
        return subprocess.Popen(
            self.words(line),
            stdin=subprocess.DEVNULL,
            stdout=subprocess.PIPE,
            stderr=subprocess.STDOUT,
            text=True,
        )

    def write(self, path: str, text: str) -> None:
        """Writes a file in there."""
        subprocess.run(
            self.words(f"cat > {path}"), input=text, text=True, check=True, timeout=SECONDS
        )

    def is_up(self) -> bool:
        """Whether its systemd takes commands; raises if it has ended."""
        if self.process.poll() is not None:
            told = self.errors.read_text(encoding="utf-8")
            raise OSError(f"no copy of this machine: {told[-300:]}")
        line = "systemctl is-active sysinit.target"
        return bool(self.first()) and self.run(line, None).returncode == 0

    def end(self) -> None:
        """Ends all that runs in there."""
        self.process.kill()
        self.process.wait(SECONDS)
        groups = [self.group, *(each for each in self.group.rglob("*") if each.is_dir())]
        wait_until(lambda: all(map(is_removed, sorted(groups, reverse=True))), "the copy's end")


def is_removed(group: pathlib.Path) -> bool:
    """Whether a control group is gone; it stays busy until the kernel has left its last process."""
    with contextlib.suppress(OSError):
        group.rmdir()
    return not group.exists()


def program() -> str:
    """The program: the file that OCS names, else what tools/program prints."""
    told = subprocess.run([TOP / "tools/program"], stdout=subprocess.PIPE, check=True, text=True)
    return str(TOP / told.stdout.strip())


def wait_until(holds: Callable[[], bool], what: str, seconds: float = SECONDS) -> None:
    """Waits until this holds."""
    end = time.monotonic() + seconds
    while not holds():
        assert time.monotonic() < end, f"{what} didn't come in {seconds:.0f} seconds"
        time.sleep(0.02)


@contextlib.contextmanager
def machine() -> Iterator[Machine]:
    """A copy of this machine."""
    with tempfile.TemporaryDirectory() as folder:
        place = pathlib.Path(folder) / "place"
        place.mkdir()
        made = Machine(place)
        try:
            wait_until(made.is_up, "systemd")
            yield made
        finally:
            made.end()
