"""Statements and exports of all accounts in one pass: the bytes of the program's own word."""
from __future__ import annotations

import pathlib
from collections.abc import Iterator

import pytest

from month.stand import Stand, now, stand
from month.worlds import ocs, world
from office import statements
from office.tables import opened


# Seconds behind the last moment; the later ones are for the slow part.
LATER = [0, *(pytest.param(after, marks=pytest.mark.slow) for after in (3000, 90_000))]
SEEDS = [0, *(pytest.param(seed, marks=pytest.mark.slow) for seed in range(1, 8))]


@pytest.mark.parametrize("after", LATER)
@pytest.mark.parametrize("seed", SEEDS)
def test_each_is_what_the_program_prints(tmp_path: pathlib.Path, seed: int, after: int) -> None:
    made = world(tmp_path, seed)
    compared, moment = 0, made.moment + after
    with opened(made.path) as database:
        texts = dict(statements.statements(database, "202601", moment))
        exports = dict(statements.exports(database, "202601"))
        empty = dict(statements.statements(database, "202512", moment))
    assert sorted(texts) == sorted(exports) == made.accounts
    for account in made.accounts:
        words = ("statement", made.path, account)
        at = ("--at", moment)
        assert texts[account] == ocs(*words, "202601", *at)
        assert exports[account] == ocs(*words, "202601", "--csv", *at)
        assert empty[account] == ocs(*words, "202512", *at)
        compared += 3
    assert compared == 24 and sum(text.count("\n") for text in exports.values()) > 30


@pytest.fixture(scope="module", name="office")
def made() -> Iterator[Stand]:
    with stand() as office:
        for account in map(str, range(49200, 49212)):
            office.open(account, 1_000_000)
            office.debit(account, "s1")
        yield office


def test_the_words_write_a_file_an_account(office: Stand) -> None:
    month = office.run("date -u +%Y%m").strip()
    dry = office.machine.run(f"office statements {month} /tmp/out --dry-run")
    assert dry.stdout.count("would be made") == 4
    told = office.machine.run(f"office statements {month} /tmp/out")
    assert sum(int(row.split()[1]) for row in told.stdout.splitlines()) == 12
    home = office.home("49200")
    text = office.run(f"cat /tmp/out/{home}/49200.txt")
    moment = int(text.split()[5])
    assert abs(now() - moment) < 600
    office.run(f"office backup {home} /tmp/copy.db")
    assert text == office.run(f"ocs statement /tmp/copy.db 49200 {month} --at {moment}")
    again = office.machine.run(f"office statements {month} /tmp/out")
    assert again.stdout == "" and again.stderr.count("is there") == 4
    office.run("rm -r /tmp/out/02; mkdir -p /tmp/out/.02.part")
    again = office.machine.run(f"office statements {month} /tmp/out")
    assert again.stdout.startswith("02 ") and again.stdout.count("\n") == 1
    told = office.machine.run(f"office exports {month} /tmp/csv --shard {home}")
    assert told.stdout.startswith(f"{home} ")
    assert ",s1,10,1," in office.run(f"cat /tmp/csv/{home}/49200.csv")
    office.run("office exports 2026 /tmp/csv", 2)
