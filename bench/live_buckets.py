"""What an account's live buckets cost: `bench/buckets --live` runs it over the built program.

Instructions of a debit, which don't change with other work on the machine (tools/play instructions):
- over a database, of two accounts in turn with so many live buckets each beside the one that pays;
- in memory, by `ocs once`, of an account to which so many refunds were made, each of which leaves a
  live bucket. These lines walk the live buckets too, so at 10,000 the count takes some minutes.
Beside them the seconds of the processor of `ocs once` over the refunds alone. A walk of the live buckets
at each command makes them 16 times as many at four times the buckets, a comparison of all pairs
would make them 64 times as many."""

from __future__ import annotations

import pathlib
import resource
import subprocess
import sys
import tempfile
from collections.abc import Callable, Sequence

TOP = pathlib.Path(__file__).resolve().parent.parent
sys.path.insert(0, str(TOP / "tools/lib"))
import offices  # noqa: E402

COUNTED = offices.tool("instructions")


def measure(counts: Sequence[int]) -> None:
    """Prints a line for each count of live buckets."""
    for count in counts:
        database = in_folder(COUNTED.beside_buckets(count, True))
        memory = in_folder(COUNTED.in_memory(COUNTED.refund, count, 2, 6))
        print(
            f"{count} live: {database:,.0f} thousand instructions a debit over a database, "
            f"{memory:,.0f} in memory; {seconds(count):.2f} s of {count} refunds",
            flush=True,
        )


def in_folder(count: Callable[[pathlib.Path], float]) -> float:
    """What is counted in a folder of its own."""
    with tempfile.TemporaryDirectory() as folder:
        return float(count(pathlib.Path(folder)))


def seconds(count: int) -> float:
    """The processor's seconds of so many refunds of one account."""
    text = COUNTED.lines(COUNTED.bodies(COUNTED.refund, count, 1, "r"))
    before = resource.getrusage(resource.RUSAGE_CHILDREN).ru_utime
    words = [offices.program(), *map(str, COUNTED.ONCE)]
    subprocess.run(words, input=text, text=True, check=True, stdout=subprocess.DEVNULL)
    return resource.getrusage(resource.RUSAGE_CHILDREN).ru_utime - before
