"""The process of HAProxy: its file, its unit, its socket.

The words `up`, `revoke` and `status` call this."""
from __future__ import annotations

import csv
import io
import pathlib
import re
import socket
import subprocess
import tempfile
import time

from office import disk, units
from office.faults import Refused
from office.settings import Settings

UNIT = "haproxy"
# The variable of a configuration's own sum.
MADE = "OFFICE_MADE"
# Until a process of HAProxy that was reloaded is at the doors.
SECONDS = 60


def put(path: pathlib.Path, text: str) -> bool:
    """Writes a configuration that HAProxy takes in the place of the one before; whether it is
    another. One that it doesn't take is refused, and the one before stays."""
    if path.exists() and path.read_text(encoding="utf-8") == text:
        return False
    accepts(text)
    disk.write(path, text, 0o644 if "userlist" not in text else 0o600)
    return True


def accepts(text: str) -> None:
    """Refuses a configuration that HAProxy doesn't take, with what it says."""
    with tempfile.NamedTemporaryFile("w", prefix="haproxy-") as file:
        file.write(text)
        file.flush()
        try:
            asked = ["haproxy", "-c", "-f", file.name]
            ended = subprocess.run(asked, capture_output=True, text=True, check=False)
        except OSError as fault:
            raise Refused(f"haproxy: {fault.strerror}") from fault
    if ended.returncode:
        lines = ended.stderr.splitlines()
        alerts = [line.partition(" : ")[2] for line in lines if line.startswith("[ALERT]")]
        raise Refused(f"haproxy doesn't take it: {'; '.join(alerts or lines)[:600]}")


def read_again(settings: Settings) -> str:
    """Has HAProxy read its files again, and waits until a process that has read them is at the
    doors; what was done, in a sentence."""
    try:
        if state() != "active":
            return f"the unit {UNIT} isn't active: nothing was reloaded"
    except Refused as fault:
        return f"nothing was reloaded ({fault}): HAProxy reads its files when it is reloaded"
    before = process(settings)
    units.systemctl("reload", UNIT)
    replaced(settings, before)
    return f"the unit {UNIT} is reloaded"


def process(settings: Settings) -> str:
    """The number of the process that is at the doors; empty where none answers."""
    try:
        lines = told(settings, "show info").splitlines()
    except Refused:
        return ""
    return next((line[5:] for line in lines if line.startswith("Pid: ")), "")


def alone(settings: Settings) -> None:
    """Waits until the process at the doors is the only one. One that was replaced ends its requests
    first, by the files as it read them; `hard-stop-after` of the configuration bounds it."""
    waits = settings.waits
    end = time.monotonic() + waits.queue + waits.start + waits.answer + SECONDS
    while older := others(settings):
        if time.monotonic() > end:
            told = " ".join(map(str, older))
            raise Refused(f"HAProxy was reloaded, and processes of before haven't ended: {told}")
        time.sleep(0.05)


def is_left(settings: Settings, here: str) -> bool:
    """Whether a process is the one at the doors, and none is on its way that has read the files
    already: one that comes later reads them as they are now."""
    end = time.monotonic() + SECONDS
    while state() == "reloading" and time.monotonic() < end:
        time.sleep(0.05)
    return process(settings) == here and not others(settings)


def state() -> str:
    """What systemd says of the unit: while it is reloaded a new process reads the files."""
    return units.state(UNIT)


def replaced(settings: Settings, here: str) -> None:
    """Waits until another process than this one is at the doors."""
    end = time.monotonic() + SECONDS
    while process(settings) in (here, ""):
        if time.monotonic() > end:
            raise Refused(f"the unit {UNIT} is at the doors as before: journalctl --unit {UNIT}")
        time.sleep(0.05)


def others(settings: Settings) -> list[int]:
    """The processes of HAProxy's unit beside its master and the one at the doors."""
    here = process(settings)
    try:
        asked = ("show", "--property", "MainPID,ControlGroup", UNIT)
        rows = units.systemctl(*asked).splitlines()
    except Refused:
        return []
    told = dict(row.split("=", 1) for row in rows if "=" in row)
    group = pathlib.Path("/sys/fs/cgroup") / told.get("ControlGroup", "").lstrip("/")
    path = group / "cgroup.procs"
    if not here or not told.get("ControlGroup") or not path.exists():
        return []
    mine = {told.get("MainPID"), here}
    return [int(each) for each in path.read_text(encoding="ascii").split() if each not in mine]


def has_read(settings: Settings, text: str) -> bool:
    """Whether the process at the doors goes by this configuration. One that was written by a word that
    was stopped then wasn't read."""
    made = re.search(rf"setenv {MADE} (\w+)", text)
    try:
        return made is not None and made[1] in told(settings, f"show env {MADE}")
    except Refused:
        return False


def up(settings: Settings, is_new: bool) -> str:
    """Starts HAProxy, or has it read a configuration that it doesn't go by; what was done. At a boot it
    starts by itself, but with two machines: there Pacemaker starts it."""
    if state() == "active":
        return read_again(settings) if is_new else f"the unit {UNIT} is up"
    if not settings.machines:
        units.systemctl("enable", "--quiet", UNIT)
    units.systemctl("restart", UNIT)
    return f"the unit {UNIT} is started"


def told(settings: Settings, command: str) -> str:
    """What HAProxy answers to a command at its socket."""
    path = f"{settings.haproxy.sockets}/admin.sock"
    try:
        with socket.socket(socket.AF_UNIX) as peer:
            peer.settimeout(10)
            peer.connect(path)
            peer.sendall(command.encode() + b"\n")
            return b"".join(iter(lambda: peer.recv(65536), b"")).decode()
    except OSError as fault:
        raise Refused(f"{path}: {fault.strerror or fault}") from fault


def shards_state(settings: Settings) -> dict[str, dict[str, str]]:
    """HAProxy's measures of each shard, by the shard's number."""
    text = told(settings, "show stat").lstrip("# ")
    rows = csv.DictReader(io.StringIO(text))
    return {
        row["svname"]: row for row in rows if row["pxname"] == "shards" and row["svname"].isdigit()
    }
