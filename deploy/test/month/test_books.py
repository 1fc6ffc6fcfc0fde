"""A book's trial, and a book for every shard or none."""
from __future__ import annotations

import subprocess
import time
from collections.abc import Iterator

import pytest

from month.machine import wait_until
from month.stand import Stand, now, stand
from office import books, civil
from office.faults import Unread

BERLIN = civil.Zone("CET-1CEST,M3.5.0,M10.5.0/3")


@pytest.fixture(scope="module", name="office")
def made() -> Iterator[Stand]:
    with stand() as office:
        office.open("49151", 1_000_000)
        yield office


def test_civil_time_is_that_of_the_rules() -> None:
    assert BERLIN.typed("2026-12-01T00:00") == 1_796_079_600
    assert BERLIN.shown(1_796_079_600) == "Tue 2026-12-01 00:00 +0100"
    # A gap and a fold are read with the offset before the change.
    assert BERLIN.typed("2026-03-29T02:30") == BERLIN.typed("2026-03-29T01:30") + 3600
    assert BERLIN.shown(BERLIN.typed("2026-10-25T02:30")).endswith("+0200")
    assert civil.Zone("+05:30").typed("1970-01-01T05:30") == 0
    assert civil.Zone("-03:30").shown(0) == "Wed 1969-12-31 20:30 -0330"
    assert BERLIN.cycle("day", 0) == 1 and BERLIN.cycle("month", 0) == 12
    assert BERLIN.day_end(BERLIN.typed("2026-10-24T12:00"), 0) == BERLIN.typed("2026-10-25T00:00")
    for text in ("2026-13-01T00:00", "tomorrow", "2026-12-01 00:00"):
        with pytest.raises(Unread):
            BERLIN.typed(text)


@pytest.mark.parametrize("name", ["Europe/Berlin", "Australia/Sydney"])
def test_civil_time_is_that_of_the_c_library(name: str) -> None:
    texts = {"Europe/Berlin": BERLIN.text, "Australia/Sydney": "AEST-10AEDT,M10.1.0,M4.1.0/3"}
    zone = civil.Zone(texts[name])
    for moment in range(1_767_225_600, 1_798_761_600, 1_234_567):
        told = subprocess.run(
            ["date", "-d", f"@{moment}", "+%a %Y-%m-%d %H:%M %z"],
            env={"TZ": texts[name], "LC_ALL": "C"},
            capture_output=True,
            text=True,
            check=True,
        )
        assert zone.shown(moment) == told.stdout.strip()


def test_blocks_cost_what_their_places_cost() -> None:
    tiers = ((3, 5), (10, 2), (books.NO_BOUND, 1))
    for first in range(12):
        for count in range(12):
            one_by_one = sum(books.price_of(tiers, first + at + 1) for at in range(count))
            assert books.rated(tiers, first, count) == one_by_one


def test_a_trial_shows_both_prices_and_adds_nothing(office: Stand) -> None:
    told = office.machine.run("office trial examples/later-book.toml --from 2027-02-01T00:00")
    assert "from Mon 2027-02-01 00:00 +0000 in +00:00 (1801440000)" in told.stderr
    rows = [row.split() for row in told.stdout.splitlines()]
    assert rows[0] == ["group", "period", "blocks", "old", "new", "change"]
    assert ["10", "off", "10", "500000", "600000", "+20.0%"] in rows
    assert ["10", "peak", "10", "1000000", "1200000", "+20.0%"] in rows
    assert ["20", "off", "1", "0", "0", "same"] in rows
    assert ["40", "peak", "100", "none", "3000000", "-"] in rows
    assert office.table("01", "SELECT count(*) FROM books") == ["0"]
    home = office.home("49151")
    told = office.machine.run(f"office trial examples/later-book.toml --from 1 --shard {home}", 1)
    assert "shelf fault 3 (it begins before" in told.stderr
    office.run("office trial examples/later-book.toml --from then", 2)
    office.run("office trial examples/later-book.toml --from 1801440000 --blocks x", 2)


def test_a_book_is_added_everywhere(office: Stand) -> None:
    words = "office book examples/later-book.toml --from 2027-02-01T00:00"
    told = office.machine.run(f"{words} --dry-run")
    assert told.stdout == "".join(f"{at:02} would get the book\n" for at in range(1, 5))
    told = office.machine.run(words)
    wanted = "".join(f"{at:02} has the book\n" for at in range(1, 5))
    assert told.stdout == wanted and told.stderr.count("requests waited") == 4
    line = "(1801440000) in shard 04 by root: has the book"
    wait_until(lambda: line in office.run("journalctl --no-pager -t office", None), "the journal")
    again = office.machine.run(words)
    assert again.stdout == wanted and "waited" not in again.stderr


def test_a_book_that_one_shard_refuses_is_in_none(office: Stand) -> None:
    later = now() + 86_400
    office.run(
        "systemctl stop ocs@03; runuser -u ocs -- ocs book /var/lib/ocs/03.db "
        "examples/later-book.toml --from 1900000000; systemctl start ocs@03"
    )
    told = office.machine.run("office book examples/later-book.toml --from 1850000000", 1)
    assert "no shard gets the book" in told.stderr and "03 ocs: shelf fault 3 (" in told.stderr
    assert "waited" not in told.stderr
    for shard in ("01", "02", "04"):
        assert office.table(shard, "SELECT starts FROM books") == ["1801440000"]
    told = office.machine.run(f"office book examples/book.toml --from {later - 86_400 + 60}", 1)
    assert "less than 600 s" in told.stderr
    office.machine.write("/tmp/no-book.toml", "zone = 1\n")
    told = office.machine.run("office book /tmp/no-book.toml --from 1950000000", 1)
    assert "04 ocs: book fault 3" in told.stderr


@pytest.mark.slow
def test_a_book_that_was_stopped_goes_on(office: Stand) -> None:
    words = "office book examples/later-book.toml --from 1950000000"
    word = office.started(words)
    wait_until(lambda: not office.is_up("02"), "the second shard's stop")
    office.kill(word)
    for at in range(1, 5):
        wait_until(lambda at=at: office.is_up(f"{at:02}"), "the start")  # type: ignore[misc]
    time.sleep(0.2)
    told = office.machine.run(words)
    assert told.stdout == "".join(f"{at:02} has the book\n" for at in range(1, 5))
    assert told.stderr.count("requests waited") in (2, 3)
