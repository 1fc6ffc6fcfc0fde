"""Debian's faketime, which shows a process another clock than the machine's."""
from __future__ import annotations

LIBRARY = "/usr/lib/x86_64-linux-gnu/faketime/libfaketime.so.1"
FAKETIME = {
    "LD_PRELOAD": LIBRARY,
    # What is waited for is waited for: the clock of waits isn't touched.
    "FAKETIME_DONT_FAKE_MONOTONIC": "1",
    # A program with checks of memory would ask the clock while it looks for its functions.
    "ASAN_OPTIONS": "allocator_release_to_os_interval_ms=-1",
}


def ahead(seconds: int) -> dict[str, str]:
    """The variables of a process whose clock is so many seconds ahead of the machine's, or behind."""
    return FAKETIME | {"FAKETIME": f"{seconds:+d}"}
