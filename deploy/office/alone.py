"""A shard's database for one word alone: stopped, and started again whatever becomes of the word.

The words `bar`, `unbar`, `import`, `book` and `carry` wrap their work in `alone`. A word holds the
shard's lock meanwhile, so two words never have one shard at once. A unit of systemd's own, the
guard, waits for that lock: where the word is killed (-9 as well) the kernel opens the lock, and the
guard starts the shard. It costs two starts of the unit, each of which reads all rows."""
from __future__ import annotations

import contextlib
import dataclasses
import os
import pathlib
import sys
import time
from collections.abc import Iterator

from office import clock, locks, places, units
from office.archive import known
from office.faults import Refused
from office.machines import pacemaker
from office.settings import Settings
from office.shards import Shard

# Seconds: for a start that reads many rows, between two looks.
START, EACH = 900.0, 0.02
# What the guard does with the lock: a database that was about to take the shard's place takes it,
# if the old one has gone already, and the unit is started.
GUARD = """\
if [ ! -e "$1" ] && [ -e "$1.next" ]; then
    rm -f "$1-wal" "$1-shm" && mv "$1.next" "$1"
fi
rm -f "$3"
exec systemctl start "$2"
"""
LISTENING = "0A"


@dataclasses.dataclass
class Pause:
    """How long the requests of a shard waited; known once it is up again."""

    seconds: float = 0.0


@contextlib.contextmanager
def alone(settings: Settings, shard: Shard, *, is_held: bool = False) -> Iterator[Pause]:
    """The shard stands still meanwhile; how long its requests waited is said on standard error. A
    shard that wasn't up stays so. With two machines Pacemaker has to leave its unit alone.

    Where its requests are `held`, HAProxy decides where each goes once the word has ended, and none is
    on its way to the shard meanwhile."""
    if settings.machines and units.is_active(shard) and not pacemaker.leaves(shard):
        raise Refused(
            f"Pacemaker would start {shard.unit} again: first `{pacemaker.leave(shard)}`, and "
            f"afterwards `{pacemaker.take(shard)}`"
        )
    with held(settings, shard) as lock:
        settle(settings, shard)
        pause = Pause()
        if units.is_serving(shard):
            # It is up, so it may come up again, by whatever clock this is.
            clock.mean(shard)
        else:
            clock.is_let(settings, shard)
        if not units.is_active(shard):
            with known.held(settings, shard) if is_held else contextlib.nullcontext():
                yield pause
            return
        guard = set_guard(settings, shard, lock)
        begun = time.monotonic()
        try:
            if is_held:
                known.hold(settings, shard)
            units.systemctl("stop", shard.unit)
            yield pause
        finally:
            with units.undisturbed():
                known.release(settings, shard)
                units.systemctl("start", shard.unit)
                units.systemctl("stop", guard)
        wait_until_up(shard)
        pause.seconds = time.monotonic() - begun
        print(f"{shard}: requests waited {pause.seconds:.1f} s", file=sys.stderr)


def settle(settings: Settings, shard: Shard) -> None:
    """Puts right what a word that was killed left of a shard."""
    gone = places.settle(settings, shard)
    known.release(settings, shard)
    for name in gone:
        known.drop(settings, name)


def held(settings: Settings, shard: Shard) -> contextlib.AbstractContextManager[pathlib.Path]:
    """The lock of a shard; refused where another word keeps it."""
    return locks.held(
        settings, f"{shard}.lock", f"another word of office has shard {shard} to itself"
    )


def set_guard(settings: Settings, shard: Shard, lock: pathlib.Path) -> str:
    """A unit that waits for the lock and then starts the shard; its name."""
    name = f"office-guard-{shard}-{os.getpid()}-{time.monotonic_ns()}.service"
    told = f"--description=Starts {shard.unit} when the word that stopped it has ended"
    waits = ["flock", str(lock), "sh", "-c", GUARD, "sh", str(shard.database), shard.unit]
    waits.append(str(known.held_of(settings, shard)))
    units.run("systemd-run", "--quiet", "--collect", f"--unit={name}", told, *waits)
    return name


def wait_until_up(shard: Shard, seconds: float = START) -> None:
    """Waits until a shard listens; refused where its process ended instead."""
    end = time.monotonic() + seconds
    while not listens(shard.port):
        told = units.systemctl("show", "--property", "SubState", "--value", shard.unit).strip()
        if told in ("auto-restart", "failed"):
            raise Refused(f"{shard.unit} doesn't start: journalctl --unit {shard.unit}")
        if time.monotonic() > end:
            raise Refused(f"{shard.unit} doesn't listen after {seconds:.0f} seconds")
        time.sleep(EACH)


def listens(port: int) -> bool:
    """Whether somebody listens on a port of 127.0.0.1; no connection is made."""
    wanted = f"0100007F:{port:04X}"
    rows = pathlib.Path("/proc/net/tcp").read_text(encoding="ascii").splitlines()[1:]
    return any(row[1] == wanted and row[3] == LISTENING for row in map(str.split, rows))
