"""The lines of the doors' log that name an account.

The word `trace` and the agent read them. It costs what `log.since` does."""
from __future__ import annotations

from collections.abc import Iterator

from office import log_line
from office.log_line import Answered
from office.seen import log
from office.settings import Settings


def lines(settings: Settings, account: str, since: str) -> Iterator[tuple[str, Answered]]:
    """Each line of an account from a moment on that `systemd.time` reads: as it is, and as read."""
    first = log.seconds(since)
    for text in log.since(settings, since, f'"account":"{account}"'):
        line = log_line.read(text)
        if isinstance(line, Answered) and line.account == account and line.moment >= first:
            yield text, line
