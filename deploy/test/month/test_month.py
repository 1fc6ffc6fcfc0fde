"""A month of an office of four shards, and of a fifth: March 2027 in Berlin with its change of the clock,
by Debian's faketime. Every answer is the one that tools/lib/ledgers.py reckons, and so is every balance,
statement and export in the end. Then rows are changed by hand.

MONTH_SUBSCRIBERS says how many subscribers there are."""
from __future__ import annotations

import collections
import csv
import pathlib
import time
from collections.abc import Callable, Iterator

import pytest

from month import tasks
from month.played import SUBSCRIBERS, Month, played
from month.tasks import MONTH
from month.test_audit import BESIDE, CHANGES, UNSEEN, changed, found
from office.audit import together
from office.tables import opened

pytestmark = pytest.mark.slow
DAYS = 31
Task = Callable[[Month], None]
Recorded = Callable[[str, object], None]


def nothing(_: Month) -> None:
    """A day on which an operator does nothing."""


def texts_are_right(month: Month, number: str) -> None:
    """Each statement and export of a month is the model's."""
    folders = {kind: f"/tmp/{kind}-{number}-{month.day}" for kind in ("statements", "exports")}
    for kind, folder in folders.items():
        month.word(f"office {kind} {number} {folder}")
    everyone = [*month.accounts, *month.model.clearings.values()]
    for account in everyone:
        one, home = month.model.whole(account), month.doors.homes[account]
        for kind, ending in (("statements", "txt"), ("exports", "csv")):
            file = month.root / folders[kind][1:] / home / f"{account}.{ending}"
            wanted = (
                one.export(number) if ending == "csv" else one.statement(number, month.clock.now)
            )
            assert file.read_text(encoding="utf-8") == wanted, account
            month.counts["texts"] += 1


# What is done at noon and in the evening of a day.
PLAN: dict[int, tuple[Task, Task]] = {
    2: (nothing, tasks.upgrade),
    3: (nothing, tasks.allowances),
    4: (lambda month: tasks.redeem(month, 0, 4), nothing),
    5: (nothing, tasks.bars),
    7: (nothing, tasks.unbars),
    8: (nothing, lambda month: tasks.new_book(month, 2, 11)),
    9: (nothing, tasks.full_disk),
    11: (nothing, tasks.keep),
    12: (lambda month: tasks.redeem(month, 4, 8), tasks.restore),
    15: (nothing, lambda month: tasks.carry(month, "03")),
    16: (tasks.drill, tasks.audit),
    17: (lambda month: tasks.repeats(month, "03"), tasks.one_more),
    18: (lambda month: tasks.repeats(month, "05"), lambda month: texts_are_right(month, MONTH)),
    20: (nothing, lambda month: tasks.new_book(month, 3, 22)),
    23: (nothing, tasks.audit),
    24: (nothing, lambda month: tasks.carry(month, "03")),
    # The first night that is kept is of before the carry.
    25: (lambda month: tasks.repeats(month, "03"), lambda month: tasks.audit(month, 0)),
    26: (lambda month: tasks.redeem(month, 8, 12), nothing),
}


@pytest.fixture(scope="module", name="month")
def made() -> Iterator[Month]:
    with played() as month:
        yield month


def test_a_month(month: Month, record_property: Recorded) -> None:
    begun = time.monotonic()
    tasks.first_day(month)
    for day in range(1, DAYS + 1):
        if day == 28:
            tasks.summer_time(month)
        noon, evening = PLAN.get(day, (nothing, nothing))
        month.passes(lambda: noon(month), lambda: evening(month))
        seconds = time.monotonic() - begun
        print(f"day {day}: {month.counts}, again {month.doors.again}, {seconds:.0f} s", flush=True)
        print(f"  {month.times()}", flush=True)
    tasks.last_hour(month)
    month.balances(month.clock.now)
    for each in (MONTH, "202704"):
        texts_are_right(month, each)
    told = month.word("office audit --sums /tmp/sums")
    assert told == "findings 0 in 5 databases\n"
    sums_are_right(month)
    record_property(f"{SUBSCRIBERS} subscribers", f"{month.counts}, again {month.doors.again}")
    record_property("seconds", month.times())


def sums_are_right(month: Month) -> None:
    """The office's sums of each month are those of the model's uses."""
    with (month.root / "tmp/sums/charges.csv").open(encoding="utf-8", newline="") as stream:
        rows = list(csv.DictReader(stream))
    for number in (MONTH, "202704"):
        uses = [
            use for account in month.accounts for use in month.model.whole(account).uses_of(number)
        ]
        own = [row for row in rows if row["month"] == number]
        for name in ("blocks", "covered", "rated", "collected"):
            assert sum(int(row[name]) for row in own) == sum(use[name] for use in uses), name
        assert sum(int(row["charges"]) for row in own) == len(uses)


def test_rows_that_another_hand_changed(
    month: Month, tmp_path: pathlib.Path, record_property: Recorded
) -> None:
    month.office.run("office backup 04 /tmp/04.db")
    source, seen = month.fetched("/tmp/04.db"), collections.Counter[str]()
    assert found(source) == []
    for what, change in (CHANGES | BESIDE | UNSEEN).items():
        copy = tmp_path / "04.db"
        copy.unlink(missing_ok=True)
        told = where_found(copy, source) if changed(source, copy, change) else NO_ROW
        assert told in EXPECTED[what], what
        seen[told] += 1
        print(f"{what}: {told}", flush=True)
    record_property("rows changed by hand", str(dict(seen)))
    assert seen[ALONE] >= 20


ALONE, EARLIER = "found in one copy", "found beside an earlier copy"
NOWHERE, NO_ROW = "not to be found", "no such row"
# What may come of each change. What shows beside an earlier copy may show in this office's alone too.
EXPECTED: dict[str, tuple[str, ...]] = {
    **dict.fromkeys(CHANGES, (ALONE, NO_ROW)),
    **dict.fromkeys(BESIDE, (ALONE, EARLIER)),
    **{what: (NOWHERE,) for what in UNSEEN},
}


def where_found(copy: pathlib.Path, source: pathlib.Path) -> str:
    """Where a changed row shows."""
    if found(copy):
        return ALONE
    with opened(copy) as database:
        return EARLIER if list(together.since("04", database, source)) else NOWHERE
