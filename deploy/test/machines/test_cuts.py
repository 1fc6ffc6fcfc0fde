"""A machine of a pair loses its power under load, again and again: real kernels (user-mode-linux),
DRBD between them, ext4 and XFS above it, disks below it whose cache goes with the power. The other
machine is promoted and serves, or goes on alone; the one that was cut comes back and is brought into
step, while gateways ask.

OFFICE_CUTS has another number of cuts for each file system."""
from __future__ import annotations

import os
import pathlib
from collections import Counter
from collections.abc import Callable

import pytest
from support.served import MAKE, said

from machines.cuts import rounds

CUTS, QUICK = int(os.environ.get("OFFICE_CUTS", "50")), 2
# A shard has so many cuts, then there is a new one: a start reads all of its log, and each call of the
# kernel is slow in such a machine.
EACH = 10


@pytest.mark.slow
@pytest.mark.parametrize("kind", MAKE)
def test_what_was_answered_outlives_a_machine(
    tmp_path: pathlib.Path, kind: str, record_property: Callable[[str, object], None]
) -> None:
    counts = Counter[str]()
    for first in range(0, CUTS, EACH):
        place = tmp_path / str(first)
        place.mkdir()
        counts.update(rounds(place, kind, min(EACH, CUTS - first)))
    record_property("all", said(counts))


@pytest.mark.slow
def test_what_was_answered_outlives_each_machine_once(tmp_path: pathlib.Path) -> None:
    rounds(tmp_path, "xfs", QUICK)
