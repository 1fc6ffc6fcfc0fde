"""Whether a shard may start by this machine's clock.

The words `check` and `up` call `fault` before a start. A command's moment is never taken back: a
shard that served for a minute under a clock that was years ahead has that moment for good. So the
clock must have been synchronised since the boot, and may be no more than a day from the last moment
of the shard's database. What an operator says of it holds for a day."""
from __future__ import annotations

import ctypes
import pathlib
import time

from office import disk
from office.faults import Refused
from office.settings import Settings
from office.shards import Shard
from office.tables import opened

DAY = 86_400
# Of adjtimex(2): that the kernel's clock isn't synchronised; it says so after hours without news.
UNSYNCHRONISED = 0x40
# Systemd's own sign that it has synchronised the clock since the boot.
SIGN = pathlib.Path("/run/systemd/timesync/synchronized")


def fault(settings: Settings, shard: Shard, now: int | None = None) -> str:
    """Why the shard may not start by the clock, in a sentence; empty where it may."""
    moment = int(time.time()) if now is None else now
    if abs(moment - meant(shard)) <= DAY:
        return ""
    if settings.office.synchronised and not was_synchronised(settings):
        return "the clock wasn't synchronised since the boot"
    last = last_moment(shard)
    if last and moment - last > DAY:
        return f"the clock is {said(moment - last)} ahead of its last command, at {shown(last)}"
    if last - moment > DAY:
        return f"the clock is {said(last - moment)} behind its last command, at {shown(last)}"
    return ""


def is_let(settings: Settings, shard: Shard) -> None:
    """Refuses what would be done by the clock to a shard that may not start by it: what is done has its
    moment for good. A shard that is ahead of the clock gets none later than it has."""
    why = fault(settings, shard)
    if why and last_moment(shard) <= time.time():
        raise Refused(f"shard {shard} isn't up, and {why}. {remedy(shard)}")


def remedy(shard: Shard) -> str:
    """What an operator does where the clock is right."""
    now = shown(int(time.time()))
    return f"If this machine's clock ({now}) is right: office check --start {shard} --meant"


def mean(shard: Shard, now: int | None = None) -> None:
    """Keeps, beside the database, that the clock is right now: for a day a start is let be."""
    moment = int(time.time()) if now is None else now
    disk.write(mark(shard), f"{moment}\n")


def meant(shard: Shard) -> int:
    """When an operator said last that the clock is right; 0 where none did, or nothing can be read of
    it: then the clock is looked at."""
    try:
        return int(mark(shard).read_bytes())
    except (FileNotFoundError, ValueError):
        return 0


def mark(shard: Shard) -> pathlib.Path:
    """The file of what an operator said."""
    return shard.database.with_suffix(".meant")


def was_synchronised(settings: Settings) -> bool:
    """Whether the clock was synchronised since the boot; that it is now is kept for later."""
    kept = pathlib.Path(settings.keeping.locks) / "clock-was-synchronised"
    if is_synchronised():
        kept.parent.mkdir(mode=0o755, parents=True, exist_ok=True)
        kept.touch()
    return kept.exists() or SIGN.exists()


class Timex(ctypes.Structure):
    """What adjtimex(2) fills in, to its status."""

    _fields_ = [
        ("modes", ctypes.c_uint),
        ("offset", ctypes.c_long),
        ("freq", ctypes.c_long),
        ("maxerror", ctypes.c_long),
        ("esterror", ctypes.c_long),
        ("status", ctypes.c_int),
        ("others", ctypes.c_char * 256),
    ]


def is_synchronised() -> bool:
    """Whether the kernel says that its clock is synchronised."""
    told = Timex()
    if ctypes.CDLL(None, use_errno=True).adjtimex(ctypes.byref(told)) < 0:
        raise Refused("the kernel doesn't say whether its clock is synchronised")
    return not told.status & UNSYNCHRONISED


def last_moment(shard: Shard) -> int:
    """The last moment of a database that nobody serves; 0 where it has no command, and where it
    can't be read: the program says more of that."""
    try:
        with opened(shard.database) as database:
            return database.last_moment
    except Refused:
        return 0


def said(seconds: int) -> str:
    """A time in days, or in hours where it is less than three."""
    return f"{seconds // DAY} days" if seconds >= 3 * DAY else f"{seconds // 3600} hours"


def shown(moment: int) -> str:
    """A moment as people read it."""
    return time.strftime("%Y-%m-%d %H:%M UTC", time.gmtime(moment))
