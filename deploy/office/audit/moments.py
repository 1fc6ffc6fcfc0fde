"""When the commands of a database were accepted, as far as its rows tell.

A kept answer has no moment. Those of events, of a session's last request and of credits without a
first moment are in other tables; answers are kept in the order in which they were accepted, and
moments never go back, so that the others are between two that are known. It costs a walk over the
keys of the answers."""
from __future__ import annotations

from collections.abc import Iterator

from office.audit.findings import Finding
from office.tables import Database

# The known moment of each answer in the order of acceptance; none where no row tells it.
KNOWN = """
    SELECT a.rowid AS id, a.account, a.name, a.number,
           CASE WHEN a.kind = 1 THEN CASE WHEN s.last_number = a.number THEN s.touched END
                WHEN instr(a.content, '"From":') = 0 THEN b.starts END AS moment
    FROM answers a
    LEFT JOIN sessions s ON a.kind = 1 AND s.account = a.account AND s.session = a.name
    LEFT JOIN buckets b ON a.kind = 2 AND b.account = a.account
        AND b.number = json_extract(a.answer, '$.Bucket')
    ORDER BY a.rowid"""
Window = tuple[int, int]


class Moments:
    """The moments between which each answer was given, by its rowid."""

    def __init__(self, shard: str, database: Database) -> None:
        self.findings: list[Finding] = []
        last, known = 0, dict[int, int | None]()
        for row in database.rows(KNOWN):
            moment = row["moment"]
            if moment is not None and not last <= moment <= database.last_moment:
                key = f"{row['account']} {row['name']} {row['number']}"
                what = f"at {moment}, beside others at {last} to {database.last_moment}"
                self.findings.append(Finding(shard, "answers", key, what))
                moment = None
            last = moment or last
            known[row["id"]] = moment
        self.windows = dict(windows(known, database.last_moment))


def windows(known: dict[int, int | None], end: int) -> Iterator[tuple[int, Window]]:
    """Each answer with the moments between which it was given."""
    later, highest = end, dict[int, int]()
    for number in reversed(known):
        moment = known[number]
        later = later if moment is None else moment
        highest[number] = later
    earlier = 0
    for number, moment in known.items():
        earlier = earlier if moment is None else moment
        yield number, (earlier, highest[number])
