"""What the page shows beside what the office answers: every number against JSON and the text."""
from __future__ import annotations

import re
import time
from typing import Any

import pytest
from support.waiting import until
from support.world import World

from console.office import ACCOUNT, BARRED, EMPTY, MOMENT, NOBODY, POOR, balance, charges
from console.person import Person

PARTS = ("Available", "Reserved", "Charged", "Expired")
READ = """(() => {
    const text = one => one.textContent.replace(/\\s+/g, ' ').trim();
    const buckets = place => [...document.querySelectorAll(place + ' [data-bucket]')].map(one => ({
        number: Number(one.dataset.bucket), available: text(one.querySelector('strong')),
        bar: one.querySelector('.bar').getAttribute('aria-label'),
        words: [...one.querySelectorAll(':scope > .parts:last-child span')].map(text),
        widths: [...one.querySelectorAll('.bar span')].map(piece => [piece.className, piece.getBoundingClientRect().width]),
    }));
    return {
        title: text(document.getElementById('balance-title')),
        available: text(document.getElementById('available')),
        total: document.querySelector('#total .bar').getAttribute('aria-label'),
        live: buckets('#live'), past: buckets('#past'),
        figures: Object.fromEntries([...document.querySelectorAll('#figures dd')].map(one => [one.dataset.figure, text(one)])),
        rows: [...document.querySelectorAll('#charges tbody tr')].map(row => [row.className, ...[...row.children].map(text)]),
        sums: [...document.querySelectorAll('#charges tfoot tr > *')].map(text),
        bars: [...document.querySelectorAll('#chart rect')].map(one => Number(one.getAttribute('height'))),
        chart: text(document.querySelector('#chart figcaption')),
        series: [...document.querySelectorAll('#series option')].map(text),
        link: document.getElementById('text').getAttribute('href'),
    };
})()"""


def money(micro: int) -> str:
    """An amount as the page shows it."""
    whole, rest = divmod(micro, 1_000_000)
    return f"{whole:,}." + re.sub("0{1,4}$", "", f"{rest:06}")


def blocks(many: int) -> str:
    """Blocks as the page shows them."""
    return f"{many:,} block{'' if many == 1 else 's'}"


def utc(moment: int, form: str = "%Y-%m-%d %H:%M") -> str:
    """A moment as the page shows it."""
    return time.strftime(form, time.gmtime(moment))


def shown(person: Person, what: str) -> Any:
    """All that the page shows of an account."""
    person.show(what)
    person.value("document.getElementById('past-box').open = true")
    seen = "document.querySelectorAll('#past [data-bucket]').length || document.getElementById('past-box').hidden"
    until(lambda: person.value(seen), "the past buckets")
    return person.value(READ)


def is_bucket(seen: Any, row: Any) -> None:
    """Whether a bucket is shown as it is."""
    written = blocks if row.get("Unit") == "blocks" else money
    scope = f"group {row['Scope']}" if "Scope" in row else "all groups"
    assert seen["available"] == written(row["Available"])
    assert seen["bar"] == ", ".join(f"{part} {written(row[part])}" for part in PARTS)
    end = "no end" if row["Until"] == 4102444800 else f"until {utc(row['Until'])}"
    assert seen["words"] == [scope, f"from {utc(row['From'])}", end]
    whole = sum(width for _, width in seen["widths"])
    for name, width in seen["widths"]:
        assert width / whole == pytest.approx(row[name.capitalize()] / row["Credited"], abs=0.01)


def test_the_balance(world: World, operator: Person) -> None:
    told, seen = balance(world), shown(operator, ACCOUNT)
    rows = told["Buckets"]
    amounts = [row for row in rows if row.get("Unit") != "blocks"]
    sums = {part: sum(row[part] for row in amounts) for part in PARTS}
    assert seen["title"] == f"Account {ACCOUNT}"
    assert seen["available"] == money(sums["Available"])
    assert seen["total"] == ", ".join(f"{part} {money(sums[part])}" for part in PARTS)
    live = [row for row in rows if row["Available"] + row["Reserved"]]
    by_end = sorted(live, key=lambda row: (row["Until"], row["Number"]))
    past = [row for row in reversed(rows) if row not in live]
    assert [one["number"] for one in seen["live"]] == [row["Number"] for row in by_end]
    assert [one["number"] for one in seen["past"]] == [row["Number"] for row in past]
    assert len(live) >= 3 and len(past) >= 1
    for one, row in zip(seen["live"] + seen["past"], by_end + past):
        is_bucket(one, row)
    assert operator.told().startswith(f"As of {utc(MOMENT, '%Y-%m-%d %H:%M:%S')}.")


@pytest.mark.parametrize("account", [ACCOUNT, POOR])
def test_the_charges_by_day(world: World, operator: Person, account: str) -> None:
    """What isn't collected has a column where there is some."""
    rows, seen = charges(world, account), shown(operator, account)
    assert operator.is_seen("#charges th.lost") is (account == POOR)
    wanted = []
    for day in sorted({utc(row[0], "%Y-%m-%d") for row in rows}, reverse=True):
        mine = [row for row in rows if utc(row[0], "%Y-%m-%d") == day]
        rated, collected, lost = (sum(row[at] for row in mine) for at in (3, 4, 5))
        wanted.append(
            ["day", day, "", "", "", money(rated), money(collected), money(lost) if lost else ""]
        )
        for moment, group, many, rated, collected, lost in reversed(mine):
            amounts = [money(rated), money(collected), money(lost) if lost else ""]
            wanted.append(["", utc(moment, "%H:%M:%S"), str(group), f"{many:,}", "", *amounts])
    assert seen["rows"] == wanted
    sums = [sum(row[at] for row in rows) for at in (3, 4, 5)]
    assert seen["sums"] == [
        "Month",
        "",
        "",
        "",
        *map(money, sums[:2]),
        money(sums[2]) if sums[2] else "",
    ]
    assert seen["figures"]["Collected this month"] == money(sums[1])
    assert seen["figures"]["Uncollected"] == money(sums[2])
    assert seen["figures"]["Charges"] == str(len(rows))
    buckets = balance(world, account)["Buckets"]
    paid = sum(row["Charged"] for row in buckets if row.get("Unit") != "blocks")
    covered = sum(row["Charged"] for row in buckets if row.get("Unit") == "blocks")
    assert seen["figures"]["Collected to date"] == money(paid)
    assert seen["figures"].get("Covered by allowances to date", blocks(0)) == blocks(covered)
    assert seen["link"] == f"/accounts/{account}/statement/202601"


def by_day(rows: list[list[int]], at: int) -> dict[str, int]:
    """A column's sums by day, where there is something."""
    sums: dict[str, int] = {}
    for row in rows:
        day = utc(row[0], "%Y-%m-%d")
        sums[day] = sums.get(day, 0) + row[at]
    return {day: value for day, value in sorted(sums.items()) if value}


def is_chart(seen: Any, wanted: dict[str, int], written: Any) -> None:
    """Whether the chart has these days, by its words and by its bars."""
    assert seen["chart"] == "; ".join(f"{day}: {written(value)}" for day, value in wanted.items())
    most, high = max(wanted.values()), max(seen["bars"])
    assert len(seen["bars"]) == len(wanted)
    for height, value in zip(seen["bars"], wanted.values()):
        assert height / high == pytest.approx(value / most, abs=0.01)


def test_the_month_as_bars(world: World, operator: Person) -> None:
    rows, seen = charges(world), shown(operator, ACCOUNT)
    is_chart(seen, by_day(rows, 4), money)
    groups = sorted({row[1] for row in rows})
    assert seen["series"] == ["money collected", *(f"blocks of group {one}" for one in groups)]
    for group in groups:
        operator.choose("#series", f"blocks of group {group}")
        mine = [row for row in rows if row[1] == group]
        is_chart(operator.value(READ), by_day(mine, 2), lambda many: f"{many:,}")
    operator.choose("#series", "money collected")


def test_what_isnt_collected_is_a_bar_of_its_own(world: World, operator: Person) -> None:
    [row], seen = charges(world, POOR), shown(operator, POOR)
    day, paid, lost = utc(row[0], "%Y-%m-%d"), row[4], row[5]
    assert seen["chart"] == f"{day}: {money(paid)} and {money(lost)} uncollected"
    assert operator.texts("#chart .parts > span") == ["collected", "uncollected"]
    first, second = seen["bars"]
    assert first / second == pytest.approx(paid / lost, abs=0.02) and lost > paid > 0


def test_a_month_is_picked(operator: Person) -> None:
    operator.show(f"{ACCOUNT}/202511")
    assert operator.text("#charges tbody") == "No charge in this month."
    assert operator.value("document.getElementById('month').tagName") == "SELECT"
    months = operator.value("[...document.getElementById('month')].map(one => one.textContent)")
    assert months == ["January 2026", "December 2025", "November 2025"]
    before = operator.counted("shown")
    operator.choose("#month", "January 2026")
    operator.is_counted("shown", before)
    assert operator.value("location.hash") == f"#{ACCOUNT}/202601"
    for button, month in (("#before", "2025-12"), ("#after", "2026-01")):
        before = operator.counted("shown")
        operator.click(button)
        operator.is_counted("shown", before)
        assert operator.value("document.getElementById('month').value") == month
        assert operator.text("#chart-title") == f"{month} by day"


def test_an_account_without_anything(operator: Person) -> None:
    operator.show(EMPTY)
    assert operator.text("#available") == "0.00"
    assert operator.text("#live") == "Nothing was credited yet."
    assert operator.text("#charges tbody") == "No charge in this month."
    assert operator.text("#chart figcaption") == "Nothing in this month"
    assert operator.value("document.getElementById('total').children.length") == 0


def test_a_barred_account(operator: Person) -> None:
    operator.show(BARRED)
    assert operator.is_seen("#barred")
    operator.show(ACCOUNT)
    assert not operator.is_seen("#barred")


def test_an_account_that_isnt_there(operator: Person) -> None:
    operator.show(NOBODY)
    assert operator.told() == f"There is no account {NOBODY} (O2)."
    assert operator.text("#none-title") == f"Open account {NOBODY}"
    assert not operator.is_seen("#sheet") and operator.is_seen("#open")


WRONG = {
    "letters": "abc",
    "too long": "1234567890123456",
    "a piece of HTML": "%3Cimg%20src=x%20onerror=%22document.title='got%20in'%22%3E",
    "a script": "%3Cscript%3Edocument.title='got in'%3C/script%3E",
    "below nothing": "-1",
    "a half of an escape": "%",
    "a path": "49151%2Fcredits%2F..",
}


@pytest.mark.parametrize("text", WRONG.values(), ids=list(WRONG))
def test_what_is_no_number(world: World, operator: Person, text: str) -> None:
    asked = len(world.lines())
    operator.show(text)
    if text.startswith("49151"):
        assert operator.value("document.getElementById('account').value") == "49151"
        return
    assert operator.text("#fault") == "An account number is 1 to 15 digits."
    assert (
        operator.value("document.getElementById('account').getAttribute('aria-invalid')") == "true"
    )
    assert operator.value("document.querySelectorAll('img, main script').length") == 0
    assert operator.value("document.title") == "Office"
    assert operator.text("#who") == "desk, operator" and operator.is_seen("#views")
    assert all("/accounts" not in line["what"] for line in world.lines()[asked:])
