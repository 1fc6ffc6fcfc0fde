"""Copies of all shards, a folder a night: made, kept for some days, sent to another place, measured.

`office backups` makes them by a timer, `office restore` takes one, `office audit` looks beside one. It
costs the disk's copy of each shard, and a second copy to the other place."""
from __future__ import annotations

import calendar
import contextlib
import hashlib
import os
import pathlib
import re
import shutil
import sys
import time
from collections.abc import Iterator

from office import copies, disk, shards
from office.faults import Refused
from office.progress import shown
from office.settings import Settings

NAME = re.compile(r"\d{8}T\d{6}Z")
FORM = "%Y%m%dT%H%M%SZ"
SUMS = "SHA256SUMS"
DAY, HOUR = 86_400, 3600


def make(settings: Settings) -> pathlib.Path:
    """Copies each shard into a new folder, which takes its name when it is whole."""
    place = pathlib.Path(settings.keeping.copies)
    while (made := place / time.strftime(FORM, time.gmtime())).exists():
        time.sleep(0.1)
    with whole(made) as part:
        for shard in shown("copy", shards.of(settings)):
            copies.copy(settings, shard, part / f"{shard}.db", is_only_read=True)
        write_sums(part)
    disk.sync(place)
    return made


@contextlib.contextmanager
def whole(night: pathlib.Path) -> Iterator[pathlib.Path]:
    """A folder that takes a night's name when it is whole. Where it isn't ended it goes, since the disk
    may be full; one that a run left which was killed goes before."""
    part = night.with_name(f".{night.name}.part")
    for left in night.parent.glob(".*.part"):
        shutil.rmtree(left)
    try:
        part.mkdir(mode=0o700, parents=True)
        yield part
        os.replace(part, night)
    except BaseException:
        shutil.rmtree(part, ignore_errors=True)
        raise


def write_sums(folder: pathlib.Path) -> None:
    """The SHA-256 of each copy, as `sha256sum --check` reads them."""
    lines = [f"{sum_of(path)}  {path.name}\n" for path in sorted(folder.glob("*.db"))]
    disk.write(folder / SUMS, "".join(lines))


def sum_of(path: pathlib.Path) -> str:
    """The SHA-256 of a file."""
    with path.open("rb") as stream:
        return hashlib.file_digest(stream, "sha256").hexdigest()


def is_whole(folder: pathlib.Path) -> bool:
    """Whether each copy of a night is the file that was made."""
    try:
        lines = (folder / SUMS).read_text(encoding="ascii").splitlines()
        wanted = {name: told for told, name in (line.split("  ") for line in lines)}
        return bool(wanted) and all(sum_of(folder / name) == wanted[name] for name in wanted)
    except (OSError, ValueError):
        return False


def send(settings: Settings) -> list[str]:
    """Copies to the other place each night that it lacks; their names."""
    elsewhere = pathlib.Path(settings.keeping.elsewhere)
    if not elsewhere.is_dir():
        raise Refused(f"{elsewhere} isn't there: the copies are on this machine alone")
    sent = []
    for night in list(nights(pathlib.Path(settings.keeping.copies))):
        if (elsewhere / night.name).exists():
            continue
        with whole(elsewhere / night.name) as part:
            shutil.copytree(night, part, dirs_exist_ok=True)
            # The other place may be of another machine: its files are synced, its folders may not be.
            for each in part.iterdir():
                disk.sync(each)
            if not is_whole(part):
                raise Refused(f"{part} isn't what {night} is: the other place's disk")
        sent.append(night.name)
    return sent


def drop(settings: Settings, place: pathlib.Path) -> list[str]:
    """Removes the nights of a place that are older than the days; their names."""
    gone = old(settings, place)
    for night in gone:
        shutil.rmtree(night)
    return [night.name for night in gone]


def old(settings: Settings, place: pathlib.Path) -> list[pathlib.Path]:
    """The nights of a place that are older than the days; the last one isn't among them."""
    before = time.time() - settings.keeping.days * DAY
    return [night for night in list(nights(place))[:-1] if moment(night) < before]


def nights(place: pathlib.Path) -> Iterator[pathlib.Path]:
    """The folders of a place, the oldest first."""
    if place.is_dir():
        yield from sorted(each for each in place.iterdir() if NAME.fullmatch(each.name))


def past(place: pathlib.Path) -> Iterator[pathlib.Path]:
    """Those that aren't ahead of the clock: a night that was made by a wrong one isn't the last."""
    now = time.time()
    yield from (night for night in nights(place) if moment(night) <= now)


def last(settings: Settings) -> pathlib.Path:
    """The last night's folder."""
    found = list(past(pathlib.Path(settings.keeping.copies)))
    if not found:
        raise Refused(f"{settings.keeping.copies} has no copies: `office backups` makes them")
    return found[-1]


def moment(night: pathlib.Path) -> float:
    """When a night's copies were begun, in seconds since 1970."""
    return float(calendar.timegm(time.strptime(night.name, FORM)))


def places(settings: Settings) -> list[str]:
    """Where copies are kept: here, and elsewhere."""
    return list(filter(None, (settings.keeping.copies, settings.keeping.elsewhere)))


def ages(settings: Settings) -> dict[str, float | None]:
    """The age of the last night's copies in each place, in seconds; none where there are none."""
    found: dict[str, float | None] = {}
    for place in places(settings):
        there = list(past(pathlib.Path(place)))
        found[place] = time.time() - moment(there[-1]) if there else None
    return found


def report(settings: Settings) -> int:
    """Prints the age of each place's last copies; 1 where one is too old or isn't there."""
    failed = 0
    for place, age in ages(settings).items():
        told = "no copies" if age is None else f"{age / HOUR:.1f} h"
        print(f"{place} {told}")
        if age is None or age > settings.keeping.hours * HOUR:
            print(f"office: {place}: {told}, at most {settings.keeping.hours} h", file=sys.stderr)
            failed = 1
    return failed
