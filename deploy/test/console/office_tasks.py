"""What is done with all accounts on the page, each task with how it is seen to be done (`tasks`)."""
from __future__ import annotations

import collections
import pathlib
import re
import tempfile
import time
from typing import Any

from console.account_tasks import SECONDS, found, month_before, pressed
from console.behind import rows_of
from console.desk import LATER_BOOK, MONTH, Desk
from console.office import ACCOUNT, DAY
from console.person import Person
from console.test_shown import money, utc

SUMS = ("charges", "blocks", "covered", "rated", "collected", "uncollected")


def views(desk: Desk, person: Person) -> None:
    """From an account to all accounts, and back."""
    found(person, ACCOUNT)
    for link, shown, hidden in (("office", "office", "sheet"), ("account", "sheet", "office")):
        pressed(person, f"#to-{link}")
        assert person.is_seen(f"#{shown}") and not person.is_seen(f"#{hidden}")
        assert person.texts("[aria-current]") == person.texts(f"#to-{link}")


def sums(desk: Desk, person: Person) -> None:
    """The sums of a month by day, group and shard, as tables and as bars, and what is uncollected."""
    person.show(f"office/{MONTH}")
    rows = desk.told(f"sums?month={MONTH}")["charges"]
    by_day = sorted(summed(rows, "day"), reverse=True)
    assert rows_of(person, "[data-part=charges]") == by_day
    for part, key in (("group", "rating_group"), ("shard", "shard")):
        assert rows_of(person, f"[data-part='charges by {part}']") == summed(rows, key)
    figures = person.texts("#sums-figures dd")
    whole = [sum(row[name] for row in rows) for name in ("collected", "uncollected", "charges")]
    assert figures == [*map(money, whole[:2]), f"{whole[2]:,}"] and "0.00" not in figures
    mine = [row for row in rows if row["rating_group"] == 30]
    for name, those in (("group 30", mine), ("all", rows)):
        person.choose("#sums-series", name)
        assert person.text("#sums-chart figcaption") == both(those)


def sums_of_months(desk: Desk, person: Person) -> None:
    """The month before and after, by buttons and by the list."""
    person.show(f"office/{MONTH}")
    said = (
        r"As of [\d-]{10} [\d:]{8}\. Amounts are in currency 978, days are those of zone \+00:00\."
    )
    assert re.fullmatch(said, person.text("#sums-moment"))
    here = person.value("document.getElementById('sums-month').value")
    before = f"#office/{month_before(here).replace('-', '')}"
    pressed(person, "#sums-before")
    assert person.value("location.hash") == before
    pressed(person, "#sums-after")
    assert person.value("location.hash") == f"#office/{MONTH}"
    counted = person.counted("shown")
    person.choose("#sums-month", person.options("#sums-month")[1])
    person.is_counted("shown", counted)
    assert person.value("location.hash") == before


def summed(rows: list[Any], key: str) -> list[list[str]]:
    """Sums by a key, as the page shows them."""
    by_key: dict[str, collections.Counter[str]] = {}
    for row in rows:
        told = {one: row[one] for one in SUMS}
        by_key.setdefault(str(row[key]), collections.Counter()).update(told)
    return [
        [name, *(f"{each[one]:,}" for one in SUMS[:3]), *(money(each[one]) for one in SUMS[3:])]
        for name, each in by_key.items()
    ]


def both(rows: list[Any]) -> str:
    """What a chart of amounts says by day: collected, and what isn't."""
    days: dict[str, collections.Counter[str]] = {}
    for row in rows:
        days.setdefault(row["day"], collections.Counter()).update({one: row[one] for one in SUMS})
    return "; ".join(
        f"{day}: {money(each['collected'])}"
        + (f" and {money(each['uncollected'])} uncollected" if each["uncollected"] else "")
        for day, each in sorted(days.items())
        if each["collected"] + each["uncollected"]
    )


def shards(desk: Desk, person: Person) -> None:
    """Is every shard up, what waits, how old are the copies?"""
    person.show("office")
    rows = desk.told("shards")["shards"]
    shown = rows_of(person, "#shards-parts")
    assert [row[:2] for row in shown] == [[one["shard"], one["unit"]] for one in rows]
    assert all(re.fullmatch(r"in \d+\.\d{3} s", row[2]) for row in shown) and len(shown) == 2
    assert [row[3] for row in shown] == ["0", "0"]


def books(desk: Desk, person: Person) -> None:
    """The prices that hold now, and the next ones."""
    person.show("office")
    wanted = []
    for book in desk.told("books")["shelves"][0]["books"]:
        for group in book["groups"]:
            name = [
                str(group["rating_group"]),
                group["unit"],
                f"{group['block']:,}",
                group["cycle"],
            ]
            wanted += [[*name, one["period"], tiers(one["tiers"])] for one in group["prices"]]
    assert rows_of(person, "#books-parts") == wanted and len(wanted) > 6
    assert "0.00 up to 100, then 0.01" in wanted[2][-1]
    assert [one.split()[0] for one in person.texts("#books-parts h3")] == ["Holds", "Comes"]


def tiers(rows: list[Any]) -> str:
    """The price of a block, as the page writes it."""
    return ", then ".join(
        money(one["price"]) + (f" up to {one['upto']:,}" if one["upto"] else "") for one in rows
    )


def trial(desk: Desk, person: Person) -> None:
    """What would a book change? Its prices beside those that hold; nothing is changed."""
    person.show("office")
    before = desk.told("books")["shelves"]
    day = utc(int(time.time()) + 40 * DAY, "%Y-%m-%d")
    person.attach("#trial [name=file]", LATER_BOOK)
    person.fill("trial", **{"from": f"{day}T00:00"})
    said = sent(person, "trial")
    assert said.startswith("The book may follow from ") and f"{day} 00:00" in said
    shown = rows_of(person, "#trial-parts")
    assert shown == prices(desk, f"{day}T00:00")[: len(shown)] and len(shown) > 20
    assert desk.told("books")["shelves"] == before


def prices(desk: Desk, start: str) -> list[list[str]]:
    """The prices of the same trial, as the page writes them."""
    return [
        [str(row["rating_group"]), row["period"], utc(row["moment"], SECONDS)]
        + [f"{row['blocks']:,}"]
        + [money(row[one]) if row[one] is not None else "-" for one in ("old", "new")]
        for row in desk.tried(LATER_BOOK, start)
    ]


def sent(person: Person, form: str) -> str:
    """Sends a form of all accounts, and reads what is told of it."""
    pressed(person, f"#{form} button.main", "done")
    return person.text(f"#{form}-done") + person.text(f"#{form}-refused")


def codes(desk: Desk, person: Person) -> None:
    """May these vouchers be imported? A file with nothing against it, and one with a code twice."""
    person.show("office")
    with tempfile.TemporaryDirectory() as folder:
        file, head = pathlib.Path(folder) / "new.csv", "code,amount,days,scope\n"
        file.write_text(f"{head}323456789012,5000000,30,\n323456789013,1,,\n")
        person.attach("#check [name=file]", file)
        assert sent(person, "check").startswith("2 codes: 2 new, 0 there already. Shard ")
        file.write_text(f"{head}323456789012,1,,\n323456789012,1,,\n")
        person.attach("#check [name=file]", file)
        assert sent(person, "check").startswith("This file may not be imported: ")
        assert "323456789012" in str(rows_of(person, "#check-parts"))
