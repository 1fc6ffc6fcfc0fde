"""The one bar of progress, on standard error where that is a terminal, for work above a second.

A word wraps what it walks over in `shown`; a walk without a known length has `total` None. The cost
is one look at the clock an item."""
from __future__ import annotations

import sys
import time
from collections.abc import Iterable, Iterator, Sized
from typing import TypeVar

Item = TypeVar("Item")
WIDTH, FIRST, EACH = 32, 1.0, 0.1


def shown(what: str, items: Iterable[Item], total: int | None = None) -> Iterator[Item]:
    """The items, with a bar of how many of them were taken."""
    if not sys.stderr.isatty():
        yield from items
        return
    if total is None and isinstance(items, Sized):
        total = len(items)
    begun = last = time.monotonic()
    done, is_drawn = 0, False
    for item in items:
        now = time.monotonic()
        if now - begun >= FIRST and now - last >= EACH:
            last, is_drawn = now, True
            draw(what, done, total)
        yield item
        done += 1
    if is_drawn:
        draw(what, done, total)
        sys.stderr.write("\n")


def draw(what: str, done: int, total: int | None) -> None:
    """Draws the bar over the one before."""
    count = f"{done}" if total is None else f"{done}/{total}"
    full = 0 if not total else WIDTH * min(done, total) // total
    bar = "" if total is None else f"[{'#' * full:{WIDTH}}] "
    sys.stderr.write(f"\r{what:12} {bar}{count}")
    sys.stderr.flush()
