"""Accounts and their money of a file: nothing twice."""
from __future__ import annotations

import time
from collections.abc import Iterator

import pytest

from month.stand import Stand, stand

COUNT = 400


@pytest.fixture(scope="module", name="office")
def made() -> Iterator[Stand]:
    with stand() as office:
        yield office


def lines(first: int, amount: int = 5_000_000) -> str:
    """The lines of some accounts."""
    rows = "".join(f"{first + at},{amount},,,\n" for at in range(COUNT))
    return "account,amount,blocks,scope,until\n" + rows


def test_a_file_is_loaded_once(office: Stand) -> None:
    office.machine.write("/tmp/new.csv", lines(500_000) + "500000,,30,10,\n600000,,,,\n")
    dry = office.machine.run("office load --dry-run /tmp/new.csv")
    assert dry.stdout == f"accounts {COUNT + 1} credits {COUNT + 1} would be asked for\n"
    told = office.machine.run("office load /tmp/new.csv")
    assert told.stdout == f"opened {COUNT + 1} there 0 credited {COUNT + 1} refused 0\n"
    again = office.machine.run("office load /tmp/new.csv")
    assert again.stdout == f"opened 0 there {COUNT + 1} credited {COUNT + 1} refused 0\n"
    for account in ("500000", "500200", "500399"):
        assert office.available(account) == 5_000_000
    assert len(office.ask("GET", "/accounts/500000")["Buckets"]) == 2
    assert office.ask("GET", "/accounts/600000")["Buckets"] == []


def test_lines_in_between_pay_nobody_twice(office: Stand) -> None:
    text = lines(500_000).replace("500001,", "700000,1,,,\n500001,", 1)
    office.machine.write("/tmp/new.csv", text)
    office.run("office load /tmp/new.csv")
    assert office.available("500001") == 5_000_000 and office.available("700000") == 1


def test_a_line_that_changed_is_refused_and_listed(office: Stand) -> None:
    office.machine.write("/tmp/new.csv", lines(500_000).replace("500007,5", "500007,6"))
    told = office.machine.run("office load /tmp/new.csv", 1)
    assert told.stdout.endswith("refused 1\n")
    listed = office.run("cat /tmp/new.csv.refused")
    assert '"Refusal"":""O5' in listed and "9,500007," in listed
    assert office.available("500007") == 5_000_000


def test_a_file_that_cannot_be_read_is_asked_of_nobody(office: Stand) -> None:
    for wrong in (
        "account\nabc\n",
        "account,amount\n1,0\n",
        "account,blocks\n1,2\n",
        "account,amount\n1\n",
        "name\n1\n",
        "account,amount,blocks,scope\n1,1,1,1\n",
    ):
        office.machine.write("/tmp/wrong.csv", wrong)
        assert "/tmp/wrong.csv: " in office.run("office load /tmp/wrong.csv", 2)


@pytest.mark.slow
def test_a_load_that_was_killed_goes_on(office: Stand) -> None:
    office.machine.write("/tmp/kill.csv", lines(800_000))
    for seconds in (0.3, 0.6, 0.9):
        word = office.started("office load /tmp/kill.csv")
        time.sleep(seconds)
        office.kill(word)
    office.run("office load /tmp/kill.csv")
    totals = {office.available(str(800_000 + at)) for at in range(0, COUNT, 7)}
    assert totals == {5_000_000}


def test_a_load_goes_on_over_a_shard_that_is_stopped(office: Stand) -> None:
    office.machine.write("/tmp/over.csv", lines(900_000))
    word = office.machine.started("office load /tmp/over.csv")
    office.run("systemctl restart ocs@01 ocs@02 ocs@03 ocs@04")
    told = word.communicate(timeout=600)[0]
    assert told == f"opened {COUNT} there 0 credited {COUNT} refused 0\n"


def test_a_terminal_sees_how_much_is_done(office: Stand) -> None:
    office.machine.write("/tmp/bar.csv", lines(950_000))
    word = office.machine.started("script -qec 'office load /tmp/bar.csv' /dev/null")
    office.run("systemctl stop ocs@01; sleep 1.5; systemctl start ocs@01")
    told = word.communicate(timeout=600)[0]
    assert f"load         [{'#' * 32}] {COUNT}/{COUNT}\n" in told
    assert told.endswith(f"opened {COUNT} there 0 credited {COUNT} refused 0\n")
