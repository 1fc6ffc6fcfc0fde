"""Requests that were accepted and whose answers didn't reach who asked: their repeats may still come.

In a new database a repeat would be accepted anew. `turn` refuses a shard with such requests, and
`moving` leaves such accounts where they are, until the doors' log has an answer that arrived or some
minutes have gone. It costs a walk over the log's lines of these minutes, and a look at the copy's
answers for each line without an answer."""
from __future__ import annotations

import time
from collections.abc import Iterator

from office import log_line, lost
from office.log_line import Answered
from office.seen import log
from office.settings import Settings
from office.tables import Database

# How long a gateway or a shop repeats a request that wasn't answered.
MINUTES = 15
KEPT = "SELECT 1 FROM answers WHERE account = ? AND name = ? AND number = ?"
CLIENT_LEFT = "C"


def expected(settings: Settings, database: Database) -> Iterator[str]:
    """The accounts with such a request by a copy, each with the request's name."""
    open_yet: dict[tuple[str, str, int], str] = {}
    first = time.time() - 60 * MINUTES
    for text in log.since(settings, f"-{MINUTES} min", '"what":"POST '):
        line = log_line.read(text)
        if not isinstance(line, Answered) or line.moment < first:
            continue
        key = lost.key(line)
        if line.status == 200 and not line.end.startswith(CLIENT_LEFT):
            open_yet.pop(key, None)
        elif database.one(KEPT, *key):
            open_yet[key] = line.account
    for account, name, number in open_yet:
        yield f"{account} {name} {number}"
