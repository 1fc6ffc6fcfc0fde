"""Waiting for what comes within a bound."""
from __future__ import annotations

import time
from collections.abc import Callable


def until(
    holds: Callable[[], object], what: str, seconds: float = 60.0, pause: float = 0.02
) -> None:
    """Waits until this holds, and looks again after a pause; a `TimeoutError` says what didn't."""
    end = time.monotonic() + seconds
    while not holds():
        if time.monotonic() > end:
            raise TimeoutError(f"not within {seconds:.0f} s: {what}")
        time.sleep(pause)
