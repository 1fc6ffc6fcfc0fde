"""What a machine's engines say of themselves, for Prometheus: whether each copy is in step, and the
votes.

`seen.measures` calls `mirrors` and `votes` for each scrape: a read of a file, and a word of
Corosync's."""
from __future__ import annotations

import dataclasses
import pathlib
import re
import subprocess

from office import shards
from office.settings import Settings

# As DRBD 8.4 shows its resources: a line of states and a line of counts each.
DRBD = pathlib.Path("/proc/drbd")
RESOURCE = re.compile(r"^ *(\d+): cs:(\S+) ro:\S+ ds:(\S+) .*\n.* oos:(\d+)", re.M)
IN_STEP = ("Connected", "UpToDate/UpToDate", "0")
QUORUM = ("corosync-quorumtool", "-s")
SECONDS = 5


@dataclasses.dataclass(frozen=True)
class Votes:
    """The votes that Corosync sees, those that there should be, and whether they are a majority."""

    there: int
    expected: int
    is_majority: bool


def mirrors(settings: Settings) -> dict[str, bool]:
    """Whether each shard's copies on both machines are the same, by the shard's number. One that
    isn't known to DRBD here is not."""
    try:
        found = {row[0]: row[1:] for row in RESOURCE.findall(DRBD.read_text(encoding="ascii"))}
    except OSError:
        found = {}
    each = shards.of(settings)
    return {one.number: found.get(str(int(one.number))) == IN_STEP for one in each}


def votes() -> Votes:
    """The votes; none where Corosync isn't up."""
    try:
        told = subprocess.run(
            QUORUM, capture_output=True, text=True, check=False, timeout=SECONDS
        ).stdout
    except (OSError, subprocess.TimeoutExpired):
        told = ""
    counts = {
        name: int(count)
        for name, count in re.findall(r"^(Total|Expected) votes: +(\d+)", told, re.M)
    }
    is_majority = re.search(r"^Quorate: +Yes", told, re.M) is not None
    return Votes(counts.get("Total", 0), counts.get("Expected", 0), is_majority)
