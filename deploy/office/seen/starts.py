"""The last start of a shard: when its process began, and how long it read its database.

`measures` asks `of` for each shard: a word of systemctl, and two of journalctl where the process is
another one than before. A start reads every row, so the next one takes longer by as much as the files
have grown; `office check --start`, which the unit runs first, leaves `described` in the journal."""
from __future__ import annotations

import dataclasses
import json
import re
import subprocess

from office import units
from office.faults import Refused
from office.shards import Shard

LISTENS, CHECKED = r"^listening ", r"^shard [0-9]{2}: [0-9]+ bytes"
PROPERTIES = ("InvocationID", "ExecMainStartTimestampMonotonic", "NRestarts", "MainPID")


@dataclasses.dataclass(frozen=True)
class Start:
    """A start of a shard's unit."""

    invocation: str
    seconds: float | None  # until it listened; None while it reads, or where nothing says it
    bytes: int | None  # of its files at the start
    restarts: int  # by systemd, since the unit was loaded

    def expected(self, size: int) -> float | None:
        """Seconds of a start with files of this size."""
        if self.seconds is None or not self.bytes:
            return self.seconds
        return self.seconds * max(1.0, size / self.bytes)


class Starts:
    """The last starts; what the journal says of each is read once."""

    def __init__(self) -> None:
        self.known: dict[str, Start] = {}

    def of(self, shard: Shard) -> Start | None:
        """The last start of a shard; None where its unit doesn't run, or there is no systemd."""
        try:
            told = properties(shard.unit)
        except Refused:
            return None
        invocation, began = told.get("InvocationID", ""), told.get(PROPERTIES[1], "")
        if not invocation or not began.isdigit() or told.get("MainPID", "0") == "0":
            return None
        restarts = int(told.get("NRestarts") or 0)
        before = self.known.get(shard.number)
        if before and before.invocation == invocation and before.seconds is not None:
            return dataclasses.replace(before, restarts=restarts)
        made = Start(invocation, listened(invocation, int(began)), checked(invocation), restarts)
        self.known[shard.number] = made
        return made


def size(shard: Shard) -> int:
    """Bytes of a shard's database and its log."""
    parts = (shard.database, shard.database.with_name(shard.database.name + "-wal"))
    return sum(part.stat().st_size for part in parts if part.exists())


def described(shard: Shard) -> str:
    """What the journal says before a start."""
    return f"shard {shard}: {size(shard)} bytes"


def properties(unit: str) -> dict[str, str]:
    """What systemd says of a unit."""
    rows = units.systemctl("show", "--property", ",".join(PROPERTIES), unit).splitlines()
    return {name: value for name, _, value in (row.partition("=") for row in rows)}


def listened(invocation: str, began: int) -> float | None:
    """Seconds from a process's beginning (microseconds of the monotonic clock) to its line that it
    listens."""
    line = message(invocation, LISTENS)
    return None if line is None else (int(line["__MONOTONIC_TIMESTAMP"]) - began) / 1e6


def checked(invocation: str) -> int | None:
    """The bytes that the check before a start has seen."""
    line = message(invocation, CHECKED)
    found = re.search("([0-9]+) bytes", line["MESSAGE"]) if line else None
    return int(found[1]) if found else None


def message(invocation: str, form: str) -> dict[str, str] | None:
    """The first line of a unit's invocation in the journal whose text has this form."""
    words = ["journalctl", f"_SYSTEMD_INVOCATION_ID={invocation}", "--grep", form, "--boot"]
    words += ["--output", "json", "--quiet", "--no-pager"]
    try:
        ended = subprocess.run(words, capture_output=True, text=True, check=False, timeout=10)
    except (OSError, subprocess.TimeoutExpired):
        return None
    lines = ended.stdout.splitlines()
    return dict(json.loads(lines[0])) if lines else None
