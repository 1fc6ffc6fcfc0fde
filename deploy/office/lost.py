"""What the doors' log has as accepted by a shard, and a copy of the shard hasn't.

`office restore` calls `since`. It costs a walk over the copy's keys of answers, and over the log's
lines of the shard."""
from __future__ import annotations

import collections
import dataclasses
import pathlib
from collections.abc import Iterator

from office import log_line
from office.log_line import Answered
from office.seen import log
from office.settings import Settings
from office.shards import Shard
from office.tables import opened

NONE = log_line.NONE
# CC-Request-Type of an event (RFC 8506, 8.3), and Result-Code of what is accepted (9).
EVENT, DONE = "4", "2001"
# Refunds, checks of a balance and price enquiries: the log doesn't say which.
EVENTS = "event"


@dataclasses.dataclass(frozen=True)
class Lost:
    """A request that a copy lacks."""

    line: Answered

    def ended(self) -> float:
        """When it was answered, in seconds since 1970."""
        return self.line.moment + self.line.took / 1000

    def kind(self) -> str:
        """What was asked for. Of events without granted units the log doesn't say which they are."""
        one = self.line
        if one.what == "POST /ccr":
            if one.type != EVENT:
                return "session"
            return EVENTS if one.granted == NONE else "debit"
        if one.what.startswith("PUT "):
            return "account"
        if one.what.startswith("POST /vouchers/"):
            return "redemption"
        return "allowance" if one.what.endswith("/allowances") else "credit"

    def __str__(self) -> str:
        one = self.line
        name = one.reference if one.session == NONE else f"{one.session} {one.number}"
        amount = "" if one.amount == NONE else f" {one.amount}"
        return f"lost {self.kind()} {one.account} {name}{amount}"


def since(settings: Settings, copy: pathlib.Path, shard: Shard, moment: float) -> Iterator[Lost]:
    """What a copy lacks of what was answered from a moment on; what was asked again, once."""
    kept, opened_by = keys(copy)
    told = set[tuple[str, str, str, int]]()
    for text in log.since(settings, f"@{moment:.0f}", f'"shard":"{shard}"'):
        line = log_line.read(text)
        if not isinstance(line, Answered) or line.shard != str(shard) or not is_accepted(line):
            continue
        found, name = Lost(line), (line.what, *key(line))
        is_kept = key(line) in kept or line.what in opened_by
        if found.ended() >= moment and not is_kept and name not in told:
            told.add(name)
            yield found


def keys(copy: pathlib.Path) -> tuple[set[tuple[str, str, int]], set[str]]:
    """The keys of the answers that a copy keeps, and the requests that opened its accounts."""
    with opened(copy) as database:
        kept = {
            (row["account"], row["name"], row["number"])
            for row in database.rows("SELECT account, name, number FROM answers")
        }
        accounts = database.rows("SELECT account FROM accounts")
        return kept, {f"PUT /accounts/{row['account']}" for row in accounts}


def key(line: Answered) -> tuple[str, str, int]:
    """The key under which the answer to a line's request is kept."""
    if line.what == "POST /ccr":
        return line.account, line.session, int(line.number) if line.number.isdigit() else 0
    return line.account, line.reference, 0


def is_accepted(line: Answered) -> bool:
    """Whether a line is of a request that its shard accepted and keeps."""
    is_read = line.what.startswith("GET ") or line.what == "POST /sweep"
    return line.status == 200 and line.code == DONE and not is_read


def is_money(one: Lost) -> bool:
    """Whether the log has an amount of it in micro-units."""
    return one.kind() == "credit" and one.line.amount.isdigit()


def summed(found: list[Lost]) -> str:
    """How many of each kind, and the sum of the credits' amounts, in micro-units."""
    counts = collections.Counter(one.kind() for one in found)
    told = [f"{kind} {count}" for kind, count in sorted(counts.items())]
    amounts = [int(one.line.amount) for one in found if is_money(one)]
    return " ".join(["lost", *(told or ["nothing"]), f"amounts {sum(amounts)}"])
