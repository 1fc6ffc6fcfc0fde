"""A shard starts by a clock that was synchronised, within a day of its last command."""
from __future__ import annotations

import dataclasses
import pathlib
import sqlite3

import pytest

from office import clock, settings, shards
from office.keeping import Keeping

LAST, DAY, HOUR = 1_800_000_000, clock.DAY, 3600


@pytest.fixture
def told(tmp_path: pathlib.Path, monkeypatch: pytest.MonkeyPatch) -> settings.Settings:
    """An office whose clock is synchronised, with a database whose last moment is LAST."""
    with sqlite3.connect(tmp_path / "01.db") as store:
        store.execute("CREATE TABLE meta (version INTEGER, last_moment INTEGER)")
        store.execute("INSERT INTO meta VALUES (3, ?)", (LAST,))
    monkeypatch.setattr(clock, "is_synchronised", lambda: True)
    monkeypatch.setattr(clock, "SIGN", tmp_path / "no-sign")
    office = settings.Office(databases=str(tmp_path), owner="", moved=str(tmp_path / "moved"))
    keeping = Keeping(locks=str(tmp_path / "run"))
    return settings.Settings(office=office, keeping=keeping)


FAULTS = {
    "the same second": (0, ""),
    "an hour later": (HOUR, ""),
    "a day later": (DAY, ""),
    "a day and a second later": (DAY + 1, "ahead of its last command"),
    "years later": (9 * 365 * DAY, "3285 days ahead of its last command, at 2027-01-15"),
    "a day before": (-DAY, ""),
    "more than a day before": (-DAY - 1, "24 hours behind its last command"),
}


@pytest.mark.parametrize("seconds, said", FAULTS.values(), ids=list(FAULTS))
def test_a_day_from_the_last_command(told: settings.Settings, seconds: int, said: str) -> None:
    fault = clock.fault(told, shards.of(told)[0], LAST + seconds)
    assert said in fault and bool(said) == bool(fault)


def test_what_an_operator_means_holds_for_a_day(told: settings.Settings) -> None:
    shard, now = shards.of(told)[0], LAST + 30 * DAY
    assert clock.fault(told, shard, now)
    clock.mean(shard, now)
    assert clock.fault(told, shard, now) == ""
    assert clock.fault(told, shard, now + DAY) == ""
    assert clock.fault(told, shard, now + DAY + 1)
    for text in ("tomorrow", ""):
        clock.mark(shard).write_text(text)
        assert clock.fault(told, shard, now)


def test_a_database_without_a_command_starts(told: settings.Settings) -> None:
    shard = shards.of(told)[0]
    with sqlite3.connect(shard.database) as store:
        store.execute("UPDATE meta SET last_moment = 0")
    assert clock.fault(told, shard, LAST) == ""


def test_a_clock_that_was_never_synchronised(
    told: settings.Settings, monkeypatch: pytest.MonkeyPatch, tmp_path: pathlib.Path
) -> None:
    shard = shards.of(told)[0]
    monkeypatch.setattr(clock, "is_synchronised", lambda: False)
    assert "wasn't synchronised" in clock.fault(told, shard, LAST)
    free = dataclasses.replace(told.office, synchronised=False)
    assert clock.fault(dataclasses.replace(told, office=free), shard, LAST) == ""
    clock.mean(shard, LAST)
    assert clock.fault(told, shard, LAST) == ""


def test_a_clock_that_was_synchronised_once(
    told: settings.Settings, monkeypatch: pytest.MonkeyPatch
) -> None:
    shard = shards.of(told)[0]
    assert clock.fault(told, shard, LAST) == ""
    monkeypatch.setattr(clock, "is_synchronised", lambda: False)
    assert clock.fault(told, shard, LAST) == ""


def test_a_database_that_cant_be_read_is_left_to_the_program(told: settings.Settings) -> None:
    shard = shards.of(told)[0]
    shard.database.unlink()
    assert clock.fault(told, shard, LAST) == ""
