"""The power of a machine is cut while it serves a shard, on ext4 and on XFS: Debian's kernel as a
program (user-mode-linux) ends with its file system, its memory and the program, and its disk keeps
all, nothing or some sectors of what it wasn't told to flush.

OFFICE_CUTS has another number of cuts."""
from __future__ import annotations

import os
import pathlib
from collections import Counter
from collections.abc import Callable

import pytest
from power.rounds import rounds
from power.there import There
from support.served import MAKE, said

CUTS, QUICK = int(os.environ.get("OFFICE_CUTS", "100")), 2
# A shard has so many cuts, then there is a new one: a start reads all of its log, and each call of the
# kernel is slow in such a machine.
EACH = 10


@pytest.mark.slow
@pytest.mark.parametrize("kind", MAKE)
def test_what_was_answered_outlives_a_machine(
    tmp_path: pathlib.Path, kind: str, record_property: Callable[[str, object], None]
) -> None:
    counts = Counter[str]()
    for first in range(0, CUTS, EACH):
        place = tmp_path / str(first)
        place.mkdir()
        counts.update(cut(place, kind, min(EACH, CUTS - first)))
    record_property("all", said(counts))


@pytest.mark.slow
def test_what_was_answered_outlives_two_cuts(tmp_path: pathlib.Path) -> None:
    cut(tmp_path, "xfs", QUICK)


def cut(place: pathlib.Path, kind: str, count: int) -> Counter[str]:
    """So many cuts of a machine; what happened."""
    there = There(place)
    try:
        return rounds(place, there, kind, count)
    finally:
        there.end()
