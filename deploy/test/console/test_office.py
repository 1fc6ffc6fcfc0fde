"""What the page shows of all accounts by the office's agent, beside what `test_tasks` has: buckets by their
kind, two machines, a shard that is away, files that are none."""
from __future__ import annotations

import json
import pathlib
from collections.abc import Iterator

import pytest
from support.world import BOOK, World

from console.behind import Agent, rows_of, told
from console.office import MOMENT, MONTH
from console.person import Person
from console.test_shown import blocks, money


@pytest.fixture(params=["operator", "reader"])
def person(request: pytest.FixtureRequest, agent: Agent) -> Iterator[Person]:
    """An operator with a pointer, or a revenue officer with keys."""
    found: Person = request.getfixturevalue(request.param)
    found.way = "keys" if request.param == "reader" else "pointer"
    yield found
    found.way = "pointer"


def test_buckets_by_kind(world: World, person: Person) -> None:
    person.show(f"office/{MONTH}")
    rows = told(world, f"sums?month={MONTH}")["buckets"]
    shown = rows_of(person, "[data-part=buckets]")
    amounts = ("credited", "available", "reserved", "charged", "expired")
    assert (
        {row[0] for row in shown}
        == {row["kind"] for row in rows}
        == {"money", "blocks of 10", "blocks of 30"}
    )
    for kind, many, *others in shown:
        mine = [row for row in rows if row["kind"] == kind]
        written = money if kind == "money" else blocks
        assert others == [written(sum(row[one] for row in mine)) for one in amounts]
        assert many == f"{sum(row['buckets'] for row in mine):,}"


PAID = {"shard": "01", "charges": 2, "blocks": 3, "covered": 1, "rated": 500_000}
BY_BOOK = {
    "as_of": MOMENT,
    "currency": 978,
    "zone": "+00:00",
    "charges": [
        {"day": f"2026-01-{day}", "book": book, "rating_group": 10, "collected": paid, **PAID}
        | {"uncollected": 500_000 - paid}
        for day, book, paid in (("20", 2, 500_000), ("21", 2, 400_000), ("05", 1, 123_456))
    ],
    "buckets": [],
}


def test_sums_by_book(operator: Person) -> None:
    """A month with two books: the page is handed the agent's answer, since here there is one book."""
    operator.show("office")
    operator.value(f"showSums({json.dumps(BY_BOOK)}, '2026-01'); at('sums').hidden = false;")
    assert rows_of(operator, "[data-part='charges by book']") == [
        ["1", "2", "3", "1", "0.50", "0.123456", "0.376544"],
        ["2", "4", "6", "2", "1.00", "0.90", "0.10"],
    ]
    assert operator.text("#sums-figures [data-figure=Uncollected]") == "0.476544"


def test_a_month_of_all_accounts_is_picked(person: Person) -> None:
    person.show(f"office/{MONTH}")
    before = person.counted("shown")
    person.push("#sums-before")
    person.is_counted("shown", before)
    assert person.value("location.hash") == "#office/202512"
    assert "No charges." in person.texts("#sums-parts p")


MACHINES = {
    "votes": {"there": 2, "expected": 3, "is_majority": True},
    "mirrored": {"01": True, "02": False},
    "lacking": ["the unit <b>drbd</b>"],
}


def test_two_machines(operator: Person) -> None:
    """What the agent tells where an office has two; here there is one, so the page is handed it."""
    operator.show("office")
    answer = json.dumps({"as_of": 0, "shards": [], "machines": MACHINES})
    operator.value(f"at('shards').hidden = false; showShards({answer})")
    assert operator.texts("#shards-parts li") == [
        "Votes: 2 of 3, a majority.",
        "Shard 01: both copies are the same.",
        "Shard 02: both copies are not the same.",
        "This machine lacks: the unit <b>drbd</b>.",
    ]


SHARDS = [
    {"shard": "07", "unit": "active", "answers": True, "seconds": 0.0123, "waiting": 1234}
    | {"ahead": 12.6, "bytes": 999_499, "log_bytes": 1_500_000, "room_bytes": 35_600_000_000}
    | {"copied": MOMENT, "read": MOMENT + 1, "swept": MOMENT + 2},
    {"shard": "08", "unit": None, "answers": False, "seconds": None, "waiting": None}
    | {"ahead": None, "bytes": None, "log_bytes": None, "room_bytes": None}
    | {"copied": None, "read": None, "swept": None},
]


def test_each_number_of_a_shard(operator: Person) -> None:
    """All that is known of one, and nothing of another: the page is handed the agent's answer."""
    operator.show("office")
    answer = json.dumps({"as_of": MOMENT, "shards": SHARDS, "machines": None})
    operator.value(f"at('shards').hidden = false; showShards({answer})")
    known = ["07", "active", "in 0.012 s", "1,234", "13 s", "999 kB", "1.5 MB", "35.6 GB"]
    times = [f"2026-01-29 14:03:0{at}" for at in range(3)]
    assert rows_of(operator, "#shards-parts") == [[*known, *times], ["08", "-", "no", *["-"] * 8]]
    assert operator.text("#shards-moment") == "as of 2026-01-29 14:03:00"


def test_a_shard_that_is_away_is_seen(world: World, operator: Person, agent: Agent) -> None:
    world.kill(2)
    try:
        operator.show("office")
        assert [row[2] == "no" for row in rows_of(operator, "#shards-parts")] == [False, True]
    finally:
        world.start(2)


def sent(person: Person, form: str) -> str:
    """Sends a form, and reads what is told of it."""
    before = person.counted("done")
    person.push(f"#{form} button.main")
    person.is_counted("done", before)
    return person.text(f"#{form}-done") + person.text(f"#{form}-refused")


def test_a_book_that_is_none(person: Person, tmp_path: pathlib.Path) -> None:
    person.show("office")
    (tmp_path / "none.toml").write_text("zone = 3\n")
    person.file("#trial [name=file]", tmp_path / "none.toml")
    person.value("document.querySelector('#trial [name=from]').value = '2027-03-01T00:00'")
    assert sent(person, "trial").startswith("Refused: ")


def test_a_file_that_isnt_sent(person: Person, tmp_path: pathlib.Path) -> None:
    """No file, no moment, too long a file: the page says so."""
    person.show("office")
    assert sent(person, "trial") == sent(person, "check") == "Choose a file."
    person.attach("#trial [name=file]", BOOK)
    assert sent(person, "trial") == "From which moment on?"
    file = tmp_path / "long.csv"
    file.write_text("x" * 65537)
    person.attach("#check [name=file]", file)
    assert sent(person, "check") == "A file has at most 65,536 bytes here."
