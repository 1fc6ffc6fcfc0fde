"""The units of systemd that serve the shards, and systemd's words.

A word that needs a database to itself wraps its work in `alone.alone`."""
from __future__ import annotations

import contextlib
import signal
import subprocess
from collections.abc import Iterator

from office.faults import Refused
from office.shards import Shard

ENDING = {signal.SIGINT, signal.SIGTERM, signal.SIGHUP}


def systemctl(*words: str) -> str:
    """What a word of systemctl prints; refused where its status isn't 0."""
    return run("systemctl", *words)


def run(*words: str) -> str:
    """What a command of systemd prints; refused where its status isn't 0."""
    try:
        ended = subprocess.run(words, capture_output=True, text=True, check=False)
    except OSError as fault:
        raise Refused(f"{words[0]}: {fault.strerror}") from fault
    if ended.returncode:
        raise Refused(f"{' '.join(words)}: {ended.stderr.strip()}")
    return ended.stdout


def state(unit: str) -> str:
    """What systemd says of a unit: `active`; `activating` also where it is to be started again."""
    return systemctl("show", "--property", "ActiveState", "--value", unit).strip()


def is_active(shard: Shard) -> bool:
    """Whether a shard's unit is up or on its way."""
    return is_up(shard.unit)


def is_serving(shard: Shard) -> bool:
    """Whether a shard's process was started; one that is refused at each start is `activating`."""
    return state(shard.unit) == "active"


def is_up(unit: str) -> bool:
    """Whether a unit is up or on its way."""
    return state(unit) in ("active", "activating", "reloading")


def process(shard: Shard) -> int:
    """The process that serves a shard; 0 where there is none."""
    return int(systemctl("show", "--property", "MainPID", "--value", shard.unit).strip() or 0)


@contextlib.contextmanager
def undisturbed() -> Iterator[None]:
    """Signals that end this process wait meanwhile, however many come."""
    before = signal.pthread_sigmask(signal.SIG_BLOCK, ENDING)
    try:
        yield
    finally:
        signal.pthread_sigmask(signal.SIG_SETMASK, before)
