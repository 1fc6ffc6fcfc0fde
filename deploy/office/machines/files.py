"""The files of a machine: what each engine reads, and where.

The word `machines` writes them, and looks whether they are as the office's file says."""
from __future__ import annotations

import os
import pathlib

from office import disk, shards
from office.cluster import Machine
from office.faults import Unread
from office.machines import mirror, resources, ring
from office.settings import Settings

ETC = pathlib.Path("/etc")
CLUSTER = "ocs/cluster.xml"
RING = "corosync/corosync.conf"
UNIT = """\
# Made by `office machines write`. A shard is served from its own file system, and only where that
# is mounted. The unit isn't enabled: Pacemaker starts it where its disk is.
[Unit]
RequiresMountsFor={databases}/%i
ConditionPathIsMountPoint={databases}/%i

[Service]
WorkingDirectory={databases}/%i
ExecStart=
ExecStart={program} serve {databases}/%i/%i.db --port {hundreds}%i --connections 1000000
"""


def this_machine(settings: Settings) -> Machine:
    """The machine of the file that this one is, by its name."""
    name = os.uname().nodename.partition(".")[0]
    for machine in settings.machines:
        if machine.name == name:
            return machine
    known = ", ".join(machine.name for machine in settings.machines)
    raise Unread(f"machine: this one is {name!r}, and the file has {known or 'none'}")


def of(settings: Settings, machine: Machine) -> dict[pathlib.Path, str]:
    """The files of a machine below /etc, each with its text."""
    made = {ETC / RING: ring.text(settings)}
    if machine.only:
        return made
    for shard in shards.of(settings):
        made[ETC / f"drbd.d/{mirror.name(shard)}.res"] = mirror.text(settings, shard)
    made[ETC / CLUSTER] = resources.text(settings)
    made[ETC / "systemd/system/ocs@.service.d/machines.conf"] = unit(settings)
    return made


def unit(settings: Settings) -> str:
    """What a shard's unit has beside deploy/ocs@.service."""
    office = settings.office
    return UNIT.format(
        databases=office.databases, program=office.program, hundreds=office.first_port // 100
    )


def is_there(path: pathlib.Path, text: str) -> bool:
    """Whether a file has this text."""
    try:
        return path.read_text(encoding="utf-8") == text
    except (OSError, UnicodeDecodeError):
        return False


def put(path: pathlib.Path, text: str) -> None:
    """Writes a file over the one before; fencing's words are for root alone."""
    path.parent.mkdir(parents=True, exist_ok=True)
    disk.write(path, text, 0o600 if path.name == pathlib.Path(CLUSTER).name else 0o644)
