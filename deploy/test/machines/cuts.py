"""Cuts of a pair's power, one after another: of the machine that serves, or of the other."""
from __future__ import annotations

import contextlib
import pathlib
import time
from collections import Counter
from collections.abc import Iterator

from support.served import said

from machines.pair import Pair

# Each third cut comes while a book is added, each fourth is the second machine's.
BOOK, SECOND = 3, 4


def rounds(place: pathlib.Path, kind: str, count: int) -> Counter[str]:
    """So many cuts; in the end both disks are compared, and each acknowledged command is asked
    again. What happened."""
    with standing(place, kind) as pair:
        pair.begin()
        pair.served.gateways.start()
        for at in range(1, count + 1):
            began = time.monotonic()
            one_round(pair, at)
            print(f"{kind}: cut {at}, {time.monotonic() - began:.0f} s", flush=True)
        gateways = pair.served.gateways
        gateways.end()
        pair.verify()
        gateways.end()
        gateways.settle()
        assert gateways.repeat() == gateways.answered
        counts = pair.served.counts(count, pair.unflushed)
        print(f"{kind}: {said(counts)}", flush=True)
        return counts


def one_round(pair: Pair, at: int) -> None:
    """A machine is cut, and comes back."""
    pair.ask()
    victim = pair.second if at % SECOND == 0 else pair.serving
    if at % BOOK == 0 and victim is pair.serving:
        pair.add_book()
    pair.lose(victim)
    pair.come_back(victim)


@contextlib.contextmanager
def standing(place: pathlib.Path, kind: str) -> Iterator[Pair]:
    """A pair that is made; it goes in the end."""
    pair = Pair(place, kind)
    try:
        pair.make()
        yield pair
    finally:
        pair.end()
