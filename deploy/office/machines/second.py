"""A shard as this machine's copy has it, while the other machine serves it.

DRBD opens a copy only where it is promoted, so the files are read on a snapshot (LVM) of the volume
below it, which has what a loss of power would leave there at that moment. Both copies are in step
before it, and are so still once a link that was away at that moment would have been noticed; with
no other generation in between, the snapshot has every command that was answered before it.

`copies` calls `take`. The mount is in a namespace of its own, so a word that is killed leaves the
snapshot alone, which the next word takes away. While it stands, each first write to a part of the
volume is slower, for which each answer waits."""
from __future__ import annotations

import contextlib
import os
import pathlib
import subprocess
import time
from collections.abc import Iterator

from office import locks, units
from office.cluster import of_disks
from office.faults import Refused
from office.machines import files, mirror, watched
from office.settings import Settings
from office.shards import Shard

# Seconds in which DRBD has noticed a link that is away: `ping-int` and `ping-timeout` of its file are
# six together.
NOTICED = 10.0
# Seconds for the end of another word's copy.
WAIT = 3600.0
OPTIONS = {"xfs": "noatime,nouuid", "ext4": "noatime"}
# Kind, options, device, an empty folder, the database's name, and the file that it is copied to.
READ = """\
mount -t "$1" -o "$2" "$3" "$4"
cp -- "$4/$5" "$6"
[ ! -e "$4/$5-wal" ] || cp -- "$4/$5-wal" "$6-wal"
"""


def has(settings: Settings, shard: Shard) -> bool:
    """Whether this machine has a copy of a shard that it doesn't serve."""
    return bool(settings.machines) and not os.path.ismount(shard.database.parent)


def take(settings: Settings, shard: Shard, file: pathlib.Path) -> None:
    """Copies a shard's database and log as this machine's copy has them at one moment."""
    with one_at_a_time(settings, shard):
        before = generation(settings, shard)
        with snapshot(settings, shard) as device:
            moment = time.monotonic()
            read(settings, shard, device, file)
        time.sleep(max(0.0, moment + NOTICED - time.monotonic()))
        if generation(settings, shard) != before:
            raise Refused(f"shard {shard}: the copies were out of step meanwhile: once more")


def generation(settings: Settings, shard: Shard) -> str:
    """DRBD's generation of a shard's copies; refused where they aren't in step."""
    if not watched.mirrors(settings)[shard.number]:
        raise Refused(
            f"shard {shard} isn't served here, and this machine's copy isn't in step with the other "
            "machine's (/proc/drbd)"
        )
    return done("drbdadm", "get-gi", mirror.name(shard))


@contextlib.contextmanager
def snapshot(settings: Settings, shard: Shard) -> Iterator[str]:
    """The device of a snapshot of a shard's volume; it goes in the end."""
    name = files.this_machine(settings).name
    machine = next(each for each in of_disks(settings.machines) if each.name == name)
    volume = pathlib.Path(mirror.disk(machine, shard))
    made = volume.with_name(f"{volume.name}-copy")
    remove(made)
    room = f"{settings.cluster.snapshot}%ORIGIN"
    words = ["--snapshot", "--name", made.name, "--extents", room]
    done("lvcreate", "--yes", "--quiet", *words, str(volume))
    try:
        yield str(made)
    finally:
        with units.undisturbed():
            remove(made)


def remove(made: pathlib.Path) -> None:
    """Takes a snapshot away, where there is one."""
    if made.is_block_device():
        done("lvremove", "--yes", "--quiet", str(made))


def read(settings: Settings, shard: Shard, device: str, file: pathlib.Path) -> None:
    """Mounts a device where nobody else sees it, and copies the files that are on it."""
    kind, place = settings.cluster.files, file.with_name("disk")
    place.mkdir()
    words = [kind, OPTIONS[kind], device, str(place), shard.database.name, str(file)]
    done("unshare", "--mount", "sh", "-ec", READ, "sh", *words)


def done(*words: str) -> str:
    """What a program prints; refused where its status isn't 0."""
    try:
        ended = subprocess.run(words, capture_output=True, text=True, check=False)
    except OSError as fault:
        raise Refused(f"{words[0]}: {fault.strerror}") from fault
    if ended.returncode:
        raise Refused(f"{words[0]}: {(ended.stderr or ended.stdout).strip()}")
    return ended.stdout


def one_at_a_time(
    settings: Settings, shard: Shard
) -> contextlib.AbstractContextManager[pathlib.Path]:
    """Another word that takes a snapshot of this shard is waited for."""
    why = f"another word of office copies shard {shard} from a snapshot"
    return locks.held(settings, f"{shard}.snapshot", why, WAIT)
