"""The doors' log: from the journal of HAProxy's unit, or from a file that the settings name.

`trace` reads what was written since a moment, by the bridge from Diameter too; `measures` and
`credited` follow what comes. What is looked for in the journal is found by journalctl, whose cost is
that of the lines since the moment."""
from __future__ import annotations

import contextlib
import re
import subprocess
from collections.abc import Iterator

from office import bridges, proxy
from office.faults import Refused, Unread
from office.settings import Settings


def since(settings: Settings, moment: str, text: str) -> Iterator[str]:
    """The lines that have this text, from a moment on that `systemd.time` reads."""
    first = seconds(moment)
    if settings.haproxy.log:
        yield from in_file(settings.haproxy.log, text)
        return
    words = ["--since", f"@{first:.6f}", "--grep", re.escape(text), "--case-sensitive=yes"]
    with started([*journal(bridges.UNIT), *words]) as process:
        assert process.stdout and process.stderr
        yield from process.stdout
        told = process.stderr.read().strip()
        # It ends with 1 where no line has the text.
        if process.wait() and told and "No entries" not in told:
            raise Refused(f"journalctl: {told}")


def follow(settings: Settings) -> Iterator[str]:
    """The lines that come from now on, without an end."""
    file = settings.haproxy.log
    words = ["tail", "--follow=name", "--retry", "--quiet", "--lines=0", file]
    with started(words if file else [*journal(), "--follow", "--lines=0"]) as process:
        assert process.stdout
        yield from process.stdout


def journal(*more: str) -> list[str]:
    """The words that print the journal of HAProxy's unit, and of these."""
    named = [word for unit in (proxy.UNIT, *more) for word in ("--unit", unit)]
    return ["journalctl", *named, "--output", "cat", "--all", "--quiet", "--no-pager"]


def seconds(moment: str) -> float:
    """A moment as journalctl reads it (`yesterday`, `2026-11-29 14:00`, `-5 min`), since 1970."""
    asked = ["systemd-analyze", "timestamp", "--", moment]
    try:
        ended = subprocess.run(asked, capture_output=True, text=True, check=False)
    except OSError as fault:
        raise Refused(f"systemd-analyze: {fault.strerror}") from fault
    found = re.search("UNIX seconds: @([0-9.]+)", ended.stdout)
    if ended.returncode or not found:
        raise Unread(
            f"{moment!r} is no moment, such as 'yesterday', '-5 min' or '2026-11-29 14:00'"
        )
    return float(found[1])


def in_file(path: str, text: str) -> Iterator[str]:
    """The lines of a file that have this text."""
    try:
        with open(path, encoding="utf-8", errors="replace") as opened:
            yield from (line for line in opened if text in line)
    except OSError as fault:
        raise Refused(f"{path}: {fault.strerror}") from fault


@contextlib.contextmanager
def started(words: list[str]) -> Iterator[subprocess.Popen[str]]:
    """A process whose lines are read; it ends with the reading."""
    try:
        process = subprocess.Popen(
            words,
            stdin=subprocess.DEVNULL,
            stdout=subprocess.PIPE,
            stderr=subprocess.PIPE,
            text=True,
            errors="replace",
        )
    except OSError as fault:
        raise Refused(f"{words[0]}: {fault.strerror}") from fault
    try:
        yield process
    finally:
        process.kill()
        process.wait()
