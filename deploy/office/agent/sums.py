"""The office's sums of a month by day, shard and rating group, over copies: those of `office audit
--sums`, each account once and without clearing accounts.

It costs a walk over the charges and buckets of each shard."""
from __future__ import annotations

import pathlib

from office import books, shards, statements
from office.agent.asked import Asked, Body, Office
from office.archive import past
from office.audit import sums as reckoned
from office.audit.together import Living
from office.civil import Zone, month_of
from office.faults import Unread
from office.settings import Settings
from office.tables import Row


def sums(office: Office, asked: Asked) -> Body:
    """Charges and buckets, a row for each day, shard and kind."""
    told = asked.told("month")
    if "month" not in told:
        raise Unread("month=YYYYMM is missing behind the ?")
    month = month_of(told["month"])
    with (
        office.kept.all() as copies,
        past.opened_parts(past.files(office.settings)) as parts,
    ):
        databases = {copy.shard.number: copy.database for copy in copies}
        book = books.shelf(copies[0].database)[0]
        living = Living(shards.Homes(office.settings), clearing(office.settings), databases)
        span = statements.around(book.zone, month)

        def by_day(zone: Zone, moment: int) -> Row | None:
            return {"day": zone.day(moment)} if zone.month(moment) == month else None

        return {
            "as_of": min(copy.moment for copy in copies),
            "month": month,
            "zone": book.zone.text,
            "currency": book.currency,
            "charges": list(reckoned.charges(living, by_day, span, parts)),
            "buckets": list(reckoned.buckets(living, by_day, span, parts)),
        }


def clearing(settings: Settings) -> set[str]:
    """The clearing accounts; none without their file."""
    path = pathlib.Path(settings.office.clearing)
    return set(path.read_text(encoding="utf-8").split()) if path.exists() else set()
