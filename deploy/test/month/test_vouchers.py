"""Files of vouchers: each code in one shard; and a statement of a copy."""
from __future__ import annotations

from collections.abc import Iterator

import pytest

from month.machine import wait_until
from month.stand import Stand, stand

HEADER = "code,amount,days,scope\n"


@pytest.fixture(scope="module", name="office")
def made() -> Iterator[Stand]:
    with stand() as office:
        office.open("49151", 1_000_000)
        for name, first in (("a", 100), ("b", 200)):
            rows = "".join(f"{first + at:012},5000000,30,\n" for at in range(3))
            office.machine.write(f"/srv/ocs/{name}.csv", HEADER + rows)
        yield office


def test_a_file_goes_where_the_fewest_are(office: Stand) -> None:
    told = office.machine.run("office import a.csv")
    assert told.stdout == "01 new 3 present 0 conflicting 0\n"
    assert "01: requests waited" in told.stderr
    line = "import /srv/ocs/a.csv in shard 01 by root: new 3 present 0 conflicting 0"
    wait_until(lambda: line in office.run("journalctl --no-pager -t office", None), "the journal")
    assert office.machine.run("office import --dry-run b.csv").stdout == "02 would get 3 codes\n"


def test_the_same_file_again_adds_nothing(office: Stand) -> None:
    told = office.machine.run("office import a.csv")
    assert told.stdout == "01 new 0 present 3 conflicting 0\n"


def test_a_code_is_never_in_two_shards(office: Stand) -> None:
    told = office.machine.run("office import --shard 02 a.csv", 1)
    assert "shard 01 has 000000000100" in told.stderr and "twice" in told.stderr
    assert told.stdout == "" and "waited" not in told.stderr


def test_other_terms_and_faults_are_told(office: Stand) -> None:
    office.machine.write("/srv/ocs/other.csv", HEADER + "000000000100,7,,\n000000000109,7,,\n")
    told = office.machine.run("office import other.csv", 1)
    assert told.stdout == "01 new 1 present 0 conflicting 1\n"
    office.machine.write("/srv/ocs/wrong.csv", HEADER + "000000000111,x,,\n")
    told = office.machine.run("office import wrong.csv", 1)
    assert "ocs: voucher fault 4 at record 2" in told.stderr
    office.run("office import nothing.csv", 2)


def test_a_code_that_an_archive_has_as_spent_is_refused(office: Stand) -> None:
    office.run("office import --shard 03 b.csv; install -d /var/lib/ocs/archive")
    path = "/var/lib/ocs/archive/03-20261001T000000.db"
    office.run(
        f"office backup 03 {path}; sqlite3 {path} "
        "\"UPDATE vouchers SET account = '49151' WHERE code = '000000000201'\""
    )
    told = office.machine.run("office import b.csv", 1)
    assert f"{path} has 000000000201 as spent" in told.stderr
    office.run(f"rm {path}")


def test_a_statement_is_the_programs(office: Stand) -> None:
    office.debit("49151", "s1")
    month = office.run("date +%Y%m").strip()
    told = office.machine.run(f"office statement 49151 {month}").stdout
    by_route = office.asked("GET", f"/accounts/49151/statement/{month}").partition("\n\n")[2]
    assert told.splitlines()[1:] == by_route.splitlines()[1:]
    charges = office.machine.run(f"office statement 49151 {month} --csv").stdout.splitlines()
    assert charges[0].startswith("moment,session") and ",s1," in charges[1]
    assert office.machine.run("office statement 7 202611", 1).stdout == '{"Refusal":"O2"}\n'
    office.run("office statement 49151 2026", 2)


def test_all_shards_are_migrated(office: Stand) -> None:
    back = "DROP TABLE covered; DROP TABLE allowance_buckets; UPDATE meta SET version = 2"
    home = office.home("49151")
    had = office.available("49151")
    office.run(
        f"systemctl stop ocs@{home}; sqlite3 /var/lib/ocs/{home}.db '{back}'; "
        f"systemctl start ocs@{home}",
        None,
    )
    told = office.machine.run("office migrate")
    assert told.stdout == "".join(f"{at:02} version 3\n" for at in range(1, 5))
    assert office.available("49151") == had
