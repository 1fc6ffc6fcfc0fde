"""Cases of a tool of tools/faults, one after another, with many runs of each at once."""

import concurrent.futures
import pathlib
import sys
import tempfile
from collections.abc import Callable, Iterable
from typing import NoReturn

import growths

LONGEST = 2000
Pool = concurrent.futures.ThreadPoolExecutor
Tried = Callable[[str, pathlib.Path, Pool], tuple[int, int]]


def reported(command: str, runs: Iterable[str], found: list[str]) -> tuple[int, int]:
    """How many runs went well and how many didn't, by what was found wrong with each; those that
    didn't are printed, with the words of the command that run them again."""
    for words, wrong in zip(runs, found):
        if wrong:
            print(f"tools/{command} {words}: {wrong[:LONGEST]}", file=sys.stderr)
    return found.count(""), len(found) - found.count("")


def play(tool: str, names: Iterable[str], jobs: int, tried: Tried) -> NoReturn:
    """Tries cases by their names in a folder in memory, and ends with what they count in all."""
    place = tempfile.TemporaryDirectory(dir=growths.IN_MEMORY)
    with place as folder, Pool(jobs) as pool:
        ends = [tried(name, pathlib.Path(folder), pool) for name in names]
    passed, failed = map(sum, zip(*ends))
    print(f"{tool}: {passed} passed, {failed} failed")
    sys.exit(1 if failed or not passed else 0)
