"""What a machine lacks for its part: programs, files, volumes, addresses, units, and what the
engines say of their files.

`office machines check` prints each fault that `of` finds. It looks, and changes nothing."""
from __future__ import annotations

import os
import pathlib
import re
import shutil
import stat
import subprocess
from collections.abc import Iterator

from office import shards
from office.cluster import Machine, of_disks
from office.faults import Refused
from office.machines import files, mirror, resources
from office.settings import Settings

# Each program with Debian's package that has it.
VOTERS = {
    "corosync": "corosync",
    "pacemakerd": "pacemaker",
    "crm_verify": "pacemaker-cli-utils",
    "corosync-quorumtool": "corosync",
}
KEEPERS = {
    "drbdadm": "drbd-utils",
    "fuser": "psmisc",
    "haproxy": "haproxy",
    "mkfs.xfs": "xfsprogs",
}
AGENTS = {
    "/usr/lib/ocf/resource.d/linbit/drbd": "drbd-utils",
    "/usr/lib/ocf/resource.d/heartbeat/Filesystem": "resource-agents",
    "/usr/lib/ocf/resource.d/heartbeat/IPaddr2": "resource-agents",
    "/usr/lib/drbd/crm-fence-peer.sh": "drbd-utils",
}
# Of DRBD's module in Debian's kernel.
VERSION = "8.4.11"
SBIN = "/usr/sbin:/sbin:/usr/bin:/bin"
KEY = pathlib.Path("/etc/corosync/authkey")
FSTAB = pathlib.Path("/etc/fstab")


def of(settings: Settings, machine: Machine) -> Iterator[str]:
    """What this machine lacks, a sentence each."""
    yield from programs(machine)
    yield from fences(settings, machine)
    yield from written(settings, machine)
    yield from ring(settings, machine)
    yield from enabled(settings, machine)
    if not machine.only:
        yield from volumes(settings, machine)
        yield from places(settings)
        yield from read(settings)


def programs(machine: Machine) -> Iterator[str]:
    """Programs and agents that aren't installed."""
    wanted = VOTERS if machine.only else VOTERS | KEEPERS
    for name, package in wanted.items():
        if not found(name):
            yield f"{name} isn't installed: apt-get install {package}"
    agents = {} if machine.only else AGENTS
    for path, package in agents.items():
        if not pathlib.Path(path).exists():
            yield f"{path} isn't installed: apt-get install {package}"


def fences(settings: Settings, machine: Machine) -> Iterator[str]:
    """What this machine needs to take the others' power away."""
    others = [each for each in of_disks(settings.machines) if each != machine]
    for agent in sorted({each.fence for each in others}):
        if not found(agent):
            yield f"{agent} isn't installed: apt-get install fence-agents"
    for each in others:
        words = dict(option.split("=", 1) for option in each.fence_options)
        script = words.get("password_script")
        if script and not os.access(script, os.X_OK):
            yield f"{script} can't be run: it prints the password of {each.name}'s fence device"


def found(name: str) -> str | None:
    """The path of a program, by this process's path or root's."""
    return shutil.which(name) or shutil.which(name, path=SBIN)


def written(settings: Settings, machine: Machine) -> Iterator[str]:
    """Files that aren't as the office's file says."""
    wanted = files.of(settings, machine)
    for path, text in wanted.items():
        if not files.is_there(path, text):
            how = "is another" if path.exists() else "isn't there"
            yield f"{path} {how}: office machines write"
    for path in sorted((files.ETC / "drbd.d").glob("ocs-*.res")):
        if path not in wanted:
            yield f"{path} is of a shard that the file hasn't: take it away"


def ring(settings: Settings, machine: Machine) -> Iterator[str]:
    """The key of the machines, and this machine's own addresses."""
    if not KEY.is_file():
        yield f"{KEY} isn't there: corosync-keygen on one machine, and the same file on each"
    elif stat.S_IMODE(KEY.stat().st_mode) & 0o077:
        yield f"{KEY} may be read by others: chmod 400 {KEY}"
    told = said("ip", "-oneline", "-4", "address")
    here = set(re.findall(r" inet ([0-9.]+)/", told))
    for key, address in (("own", machine.own), ("office", machine.office)):
        if address not in here:
            yield f"this machine hasn't the address {address} ({key})"


def enabled(settings: Settings, machine: Machine) -> Iterator[str]:
    """Units that start at a boot and mustn't, and those that must."""
    for unit in ("corosync", "pacemaker"):
        if state(unit) != "enabled":
            yield f"the unit {unit} isn't enabled: systemctl enable {unit}"
    ours = (
        [] if machine.only else ["drbd", "haproxy", *(shard.unit for shard in shards.of(settings))]
    )
    for unit in ours:
        if state(unit) == "enabled":
            yield f"the unit {unit} is enabled, and Pacemaker starts it: systemctl disable {unit}"


def state(unit: str) -> str:
    """Whether a unit is enabled, in systemd's word."""
    return said("systemctl", "is-enabled", unit).strip()


def volumes(settings: Settings, machine: Machine) -> Iterator[str]:
    """Volumes that aren't there."""
    for shard in shards.of(settings):
        path = pathlib.Path(mirror.disk(machine, shard))
        if not path.is_block_device():
            yield f"{path} is no volume: shard {shard} needs one, of the same size on both machines"


def places(settings: Settings) -> Iterator[str]:
    """Where file systems are mounted, by Pacemaker alone."""
    lines = FSTAB.read_text(encoding="utf-8").splitlines() if FSTAB.exists() else []
    mounted = {row[1] for row in map(str.split, lines) if len(row) > 1 and row[0][0] != "#"}
    for shard in shards.of(settings):
        place = shard.database.parent
        if not place.is_dir():
            yield f"{place} isn't there: install -d {place}"
        elif not os.path.ismount(place) and any(place.iterdir()):
            yield f"{place} isn't mounted and has files: a shard that isn't mirrored is left there"
        if str(place) in mounted:
            yield f"{place} is in {FSTAB}, and Pacemaker mounts it: take the line away"


def read(settings: Settings) -> Iterator[str]:
    """What the engines say of the files that are there. DRBD's are read as its module 8.4 has them,
    which is loaded with the first resource; Pacemaker's is read as a part of a whole."""
    for shard in shards.of(settings):
        path = files.ETC / f"drbd.d/{mirror.name(shard)}.res"
        if path.exists():
            yield from refused("drbdadm", "--config-file", str(path), "dump", mirror.name(shard))
    if (files.ETC / files.RING).exists() and KEY.is_file():
        yield from refused("corosync", "-t", "-c", str(files.ETC / files.RING))
    if (files.ETC / files.CLUSTER).exists():
        text = (files.ETC / files.CLUSTER).read_text(encoding="utf-8")
        yield from refused("crm_verify", "--xml-text", resources.whole(text))


def refused(name: str, *words: str) -> list[str]:
    """What a program says where its status isn't 0; nothing where it isn't installed."""
    path = found(name)
    if not path:
        return []
    ended = ran(path, *words)
    told = (ended.stderr.strip() or ended.stdout.strip()).splitlines()
    return [f"{name}: {' '.join(told)[:400]}"] if ended.returncode else []


def said(name: str, *words: str) -> str:
    """What a program prints, whatever its status."""
    return ran(found(name) or name, *words).stdout


def ran(*words: str) -> subprocess.CompletedProcess[str]:
    """A program that was run."""
    environment = os.environ | {"DRBD_DRIVER_VERSION_OVERRIDE": VERSION}
    try:
        return subprocess.run(words, capture_output=True, text=True, check=False, env=environment)
    except OSError as fault:
        raise Refused(f"{words[0]}: {fault.strerror}") from fault
