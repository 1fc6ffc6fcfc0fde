"""Starts a program within a unit's SystemCallFilter and MemoryDenyWriteExecute, without systemd:

    sealed.py UNIT PROGRAM WORD .."""
from __future__ import annotations

import importlib
import os
import re
import subprocess
import sys


def groups() -> dict[str, set[str]]:
    """The members of each of systemd's groups of system calls: names, and other groups."""
    words = ["systemd-analyze", "--no-pager", "syscall-filter"]
    told = subprocess.run(words, capture_output=True, text=True, check=True).stdout
    made: dict[str, set[str]] = {}
    for part in re.split(r"^(?=@)", told, flags=re.M)[1:]:
        name, *members = part.split("\n")
        made[name] = {each.strip() for each in members if re.fullmatch(" +@?[a-z0-9_-]+", each)}
    return made


def calls_of(group: str, every: dict[str, set[str]]) -> set[str]:
    """The system calls of a group, with those of the groups in it."""
    more = {name for name in every[group] if name.startswith("@")}
    return (every[group] - more).union(*(calls_of(name, every) for name in more))


def sealed(unit: str, words: list[str]) -> None:
    """Becomes another program within a unit's SystemCallFilter and MemoryDenyWriteExecute."""
    seccomp = importlib.import_module("seccomp")
    with open(unit, encoding="utf-8") as file:
        text = file.read()
    assert "MemoryDenyWriteExecute=yes" in text
    rows = re.findall("^SystemCallFilter=(~?)(.*)$", text, re.M)
    allowed, every = set[str](), groups()
    for is_less, named in rows:
        for group in named.split():
            calls = calls_of(group, every)
            allowed = allowed - calls if is_less else allowed | calls
    sealing = seccomp.SyscallFilter(seccomp.ERRNO(1))
    for name in allowed:
        try:
            sealing.add_rule(seccomp.ALLOW, name)
        except RuntimeError:
            continue
    memory = seccomp.SyscallFilter(seccomp.ALLOW)
    both, execute = 6, 4
    denied = seccomp.ERRNO(1)
    memory.add_rule(denied, "mmap", seccomp.Arg(2, seccomp.MASKED_EQ, both, both))
    for name in ("mprotect", "pkey_mprotect"):
        memory.add_rule(denied, name, seccomp.Arg(2, seccomp.MASKED_EQ, execute, execute))
    memory.load()
    sealing.load()
    os.execvp(words[0], words)


if __name__ == "__main__":
    sealed(sys.argv[1], sys.argv[2:])
