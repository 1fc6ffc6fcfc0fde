"""The power of a shard's disk is cut while it is served, on ext4 and on XFS, by this machine's own
kernel, on a disk whose cache goes with the power: of what it wasn't told to flush all, nothing or
some sectors are left. The disk alone loses its power; no kernel ends.

OFFICE_CUTS has another number of cuts."""
from __future__ import annotations

import os
import pathlib
from collections import Counter
from collections.abc import Callable

import pytest
from power.here import Here
from power.rounds import checkpoints, rounds, standing
from support.filled import Filled
from support.served import MAKE, said

Record = Callable[[str, object], None]
CUTS, QUICK = int(os.environ.get("OFFICE_CUTS", "100")), 3
CHECKPOINTS = max(1, CUTS // 5)
# A shard has so many cuts, then there is a new one: each third adds a book, and a shelf has room for 16.
EACH = 20


@pytest.mark.parametrize("count", [QUICK, pytest.param(CUTS, marks=pytest.mark.slow)])
@pytest.mark.parametrize("kind", MAKE)
def test_what_was_answered_outlives_the_power(
    tmp_path: pathlib.Path, kind: str, count: int, record_property: Record
) -> None:
    counts = Counter[str]()
    for first in range(0, count, EACH):
        place = tmp_path / str(first)
        place.mkdir()
        here = Here(place)
        try:
            counts.update(rounds(place, here, kind, min(EACH, count - first)))
        finally:
            here.end()
    record_property("all", said(counts))


@pytest.mark.slow
@pytest.mark.parametrize("kind", MAKE)
def test_a_checkpoint_that_loses_its_power(
    tmp_path: pathlib.Path, kind: str, record_property: Record
) -> None:
    filled = Filled(tmp_path / "filled")
    ended = 0
    for at in range(CHECKPOINTS):
        place = tmp_path / str(at)
        place.mkdir()
        here = Here(place)
        try:
            ended += checkpoints(place, here, kind, filled)
        finally:
            here.end()
    record_property("all", f"{CHECKPOINTS} cuts at a checkpoint, of which {ended} had ended")


def test_a_disk_that_lies_is_found(tmp_path: pathlib.Path) -> None:
    here = Here(tmp_path)
    try:
        with standing(tmp_path, here, "ext4") as drill:
            drill.begin()
            drill.disk.lie()
            before = drill.served.gateways.answered
            drill.ask()
            drill.cut("lost")
            assert drill.served.gateways.answered > before
            with pytest.raises(AssertionError) as fault:
                drill.begin()
            assert fault.traceback[-1].name == "assert_same"
    finally:
        here.end()
