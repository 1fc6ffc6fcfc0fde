"""Starts a program that is given a processor at once when it has something to do, and no more of it:
NUMBER WORDS.. It stays on one processor, by its number, goes before other work where this is root,
and takes short turns, which Linux 6.12 and later give sooner. User-mode-linux goes back and forth
between two processes for each call of the kernel, and would wait for a turn each time."""
from __future__ import annotations

import ctypes
import os
import struct
import sys

# The call of x86-64, and its structure: size, policy, flags, nice, priority, and three times.
SCHED_SETATTR, ATTRIBUTES = 314, "IIQiIQQQ"
NICE, TURN = -15, 100_000


def words(number: int) -> list[str]:
    """What is before the words of a program that is to be started so."""
    return [sys.executable, __file__, str(number)]


def main() -> None:
    """Becomes the program."""
    number, program = int(sys.argv[1]), sys.argv[2:]
    there = sorted(os.sched_getaffinity(0))
    os.sched_setaffinity(0, {there[number % len(there)]})
    nice = NICE if os.geteuid() == 0 else os.nice(0)
    size = struct.calcsize(ATTRIBUTES)
    wanted = struct.pack(ATTRIBUTES, size, os.SCHED_OTHER, 0, nice, 0, TURN, 0, 0)
    ctypes.CDLL(None).syscall(SCHED_SETATTR, 0, wanted, 0)
    os.execvp(program[0], program)


if __name__ == "__main__":
    main()
