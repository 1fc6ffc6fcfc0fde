"""What a disk has at an instant under load, by this machine's own kernel, on ext4 and on XFS.

The shard's file system is in a file behind a loop device; at a random moment that file is cloned,
at one instant (`cp --reflink` on XFS). The clone is what the disk has if the power goes then, with
nothing of the page cache. Its file system replays its journal, the database holds the first
commands and all that were answered before, and the program opens it and answers them again byte for
byte. No write that was handed to the disk is lost in here, as a disk's own cache may lose it: no
power is cut."""
from __future__ import annotations

import contextlib
import http.client
import pathlib
import random
import time
from collections.abc import Iterator

import pytest
from copies.conftest import FILE, Asked, ask, debit, debits_of
from support.waiting import until
from support.world import World, done, ran

MAKE = {"ext4": ["mkfs.ext4", "-q", "-F"], "xfs": ["mkfs.xfs", "-q", "-f"]}
OPTIONS = {"ext4": "loop", "xfs": "loop,nouuid"}
OUTER, INNER = 3 << 30, 400 << 20
CUTS = [6, pytest.param(60, marks=pytest.mark.slow)]
REPEATS = 20


@pytest.mark.parametrize("count", CUTS)
@pytest.mark.parametrize("kind", MAKE)
def test_a_disk_has_what_was_answered(tmp_path: pathlib.Path, kind: str, count: int) -> None:
    chance = random.Random(f"{kind} {count}")
    again = 0
    with filled(tmp_path, kind) as (outer, world, asked):
        for at in range(1, count + 1):
            time.sleep(chance.uniform(0.05, 1.2))
            before = asked.answered
            # A name of its own: a loop device may show the file of that name before.
            image = outer / f"cut-{at}.img"
            done("cp", "--reflink=always", outer / "disk.img", image)
            after = asked.sent
            with mounted(image, tmp_path / f"cut-{at}", OPTIONS[kind]) as place:
                found = debits_of(taken(place, tmp_path))
                assert found == list(range(1, len(found) + 1))
                assert before <= len(found) <= after, (at, before, len(found), after)
                if at % 3 == 0:
                    again += answered_again(place, asked, before)
            image.unlink()
        assert not asked.fault and again == count // 3 * REPEATS


def taken(place: pathlib.Path, folder: pathlib.Path) -> pathlib.Path:
    """A copy of a disk's database and log, beside no disk."""
    for name in ("01.db", "01.db-wal"):
        (folder / name).write_bytes((place / name).read_bytes())
    return folder / "01.db"


def answered_again(place: pathlib.Path, asked: Asked, before: int) -> int:
    """Asks the last commands that were answered before the cut again, of the program over the disk;
    how many there were."""
    world = World(place, FILE, {})
    world.start(1)
    try:
        peer = http.client.HTTPConnection("127.0.0.1", world.first + 1, timeout=60)
        numbers = range(max(1, before - REPEATS + 1), before + 1)
        told = [ask(peer, "POST", "/ccr", debit(number)) for number in numbers]
        peer.close()
        assert told == [asked.answers[number - 1] for number in numbers]
        return len(told)
    finally:
        world.end()


@contextlib.contextmanager
def filled(folder: pathlib.Path, kind: str) -> Iterator[tuple[pathlib.Path, World, Asked]]:
    """Where the disk is, the shard on it, and its client at work."""
    blank(folder / "outer.img", OUTER, MAKE["xfs"])
    with mounted(folder / "outer.img", folder / "outer", "loop") as outer:
        blank(outer / "disk.img", INNER, MAKE[kind])
        with mounted(outer / "disk.img", folder / "inner", "loop") as inner:
            world = World(inner, FILE, {})
            world.make(1)
            asked = Asked(world)
            asked.thread.start()
            try:
                until(lambda: asked.answered > REPEATS or asked.fault, "the first debits")
                yield outer, world, asked
            finally:
                asked.stop.set()
                asked.thread.join()
                world.end()


def blank(file: pathlib.Path, size: int, make: list[str]) -> None:
    """A file with an empty file system."""
    with file.open("wb") as made:
        made.truncate(size)
    done(*make, file)


@contextlib.contextmanager
def mounted(file: pathlib.Path, place: pathlib.Path, options: str) -> Iterator[pathlib.Path]:
    """A file's file system is mounted meanwhile."""
    place.mkdir()
    done("mount", "-o", options, file, place)
    try:
        yield place
    finally:
        until(lambda: ran("umount", place).returncode == 0, f"the end of {place}")
        place.rmdir()
