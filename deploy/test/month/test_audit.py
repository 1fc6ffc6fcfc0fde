"""An audit: nothing is found of what the program wrote, and what another hand changes is found, or
named as not to be found."""
from __future__ import annotations

import contextlib
import pathlib
import sqlite3
import xml.etree.ElementTree
from collections.abc import Iterator

import pytest

from month.stand import Stand, stand
from month.worlds import BERLIN, World, world
from office.audit import reckoned, strays, together
from office.audit.findings import Finding
from office.tables import opened

# A bucket of money that paid something and is still there; a debit that was paid.
PAID = """(account, number) IN (SELECT b.account, b.number FROM buckets b
          LEFT JOIN allowance_buckets l USING (account, number)
          WHERE l.number IS NULL AND b.charged > 9 AND b.expired = 0 LIMIT 1)"""
DEBIT = """(account, number) IN (SELECT c.account, c.number FROM charges c JOIN sessions s
           USING (account, session) WHERE s.state = 3 AND c.collected > 9 LIMIT 1)"""
PAYER = f"(SELECT account FROM charges WHERE {DEBIT})"
LAST = (
    """(account, number) IN (SELECT account, max(number) FROM charges GROUP BY account LIMIT 1)"""
)
ONE = "rowid = (SELECT rowid FROM {} LIMIT 1)"
# Each keeps the rules of its table, and the sums where it can.
CHANGES = {
    "money given": f"UPDATE buckets SET credited = credited + 5000000, "
    f"available = available + 5000000 WHERE {PAID}",
    "money moved from charged to available": f"UPDATE buckets SET charged = charged - 5, "
    f"available = available + 5 WHERE {PAID}",
    "a debit that is cheaper, its bucket and its sums too": f"""
        UPDATE buckets SET charged = charged - 5, available = available + 5
        WHERE (account, number) IN (SELECT b.account, b.number FROM buckets b
            LEFT JOIN allowance_buckets l USING (account, number) WHERE l.number IS NULL
            AND b.charged > 9 AND b.expired = 0 AND b.account = {PAYER} LIMIT 1);
        UPDATE charges SET rated = rated - 5, collected = collected - 5 WHERE {DEBIT}""",
    "a debit left uncollected": f"""
        UPDATE charges SET collected = collected - 5, uncollected = uncollected + 5 WHERE {DEBIT}""",
    "a charge in another month": f"UPDATE charges SET moment = moment - 2678400 WHERE {DEBIT}",
    "a charge of another session": f"UPDATE charges SET session = session || 'x' WHERE {DEBIT}",
    "a charge of fewer blocks": f"UPDATE charges SET blocks = blocks - 1 WHERE {DEBIT}",
    "the last charge gone": f"""
        UPDATE accounts SET next_charge = next_charge - 1
        WHERE account = (SELECT account FROM charges GROUP BY account LIMIT 1);
        DELETE FROM covered WHERE {LAST}; DELETE FROM charges WHERE {LAST}""",
    "a number that comes again": "UPDATE accounts SET next_charge = next_charge - 1 WHERE account = "
    "(SELECT account FROM charges LIMIT 1)",
    "a counter put back": "UPDATE counters SET blocks = blocks - 1 WHERE rowid = "
    "(SELECT rowid FROM counters WHERE blocks > 0 LIMIT 1)",
    "a spent voucher unspent": "UPDATE vouchers SET account = NULL WHERE account IS NOT NULL",
    "a voucher spent by nobody's redemption": "UPDATE vouchers SET account = "
    "(SELECT account FROM accounts LIMIT 1) WHERE account IS NULL",
    "a voucher worth more": "UPDATE vouchers SET amount = amount + 1 WHERE account IS NOT NULL",
    "a bucket without an end": "UPDATE buckets SET ends = 4102444800 WHERE rowid = "
    "(SELECT rowid FROM buckets WHERE ends < 4102444800 AND expired = 0 LIMIT 1)",
    "expired money available again": """
        UPDATE buckets SET available = expired, expired = 0, ends = 4102444800 WHERE rowid =
        (SELECT rowid FROM buckets WHERE expired > 0 LIMIT 1)""",
    "a bucket of one group for all": "UPDATE buckets SET scope = NULL WHERE rowid = (SELECT b.rowid "
    "FROM buckets b LEFT JOIN allowance_buckets l USING (account, number) "
    "WHERE b.scope IS NOT NULL AND l.number IS NULL LIMIT 1)",
    "blocks that count as money": "DELETE FROM allowance_buckets WHERE "
    + ONE.format("allowance_buckets"),
    "two answers changed places": """
        UPDATE answers SET answer = (SELECT b.answer FROM answers b WHERE b.kind = 1
            AND b.rowid <> answers.rowid AND b.account = answers.account LIMIT 1)
        WHERE rowid = (SELECT max(rowid) FROM answers WHERE kind = 1)""",
    "a kept credit of another amount": """
        UPDATE answers SET content = replace(content, '"Amount":', '"Amount":1')
        WHERE rowid = (SELECT rowid FROM answers WHERE content LIKE '{"Amount":%' LIMIT 1)""",
    "an answer that grants more": """
        UPDATE answers SET answer = replace(answer, '"CC-Time":', '"CC-Time":1')
        WHERE rowid = (SELECT rowid FROM answers WHERE answer LIKE '%"CC-Time":%' LIMIT 1)""",
    "an account's answers gone": """
        DELETE FROM answers WHERE account = (SELECT account FROM charges LIMIT 1)""",
    "a covered block more": "UPDATE covered SET blocks = blocks + 1 WHERE " + ONE.format("covered"),
    "a group's use put back": "UPDATE session_groups SET used = used - 1 WHERE rowid = "
    "(SELECT rowid FROM session_groups WHERE used > 0 LIMIT 1)",
    "a session that goes on": """
        UPDATE sessions SET state = 1 WHERE rowid =
        (SELECT rowid FROM sessions WHERE state = 2 LIMIT 1)""",
    "money that a session holds let go": """
        UPDATE buckets SET available = available + 1, reserved = reserved - 1 WHERE rowid =
        (SELECT rowid FROM buckets WHERE reserved > 0 LIMIT 1)""",
}
# What leaves nothing in one copy, and shows beside an earlier one.
BESIDE = {
    "a bar lifted": "UPDATE accounts SET barred = 1 - barred WHERE " + ONE.format("accounts"),
    "a later book gone that priced nothing yet": "DELETE FROM books WHERE number = 3",
    "another text of the first book that prices the same": "UPDATE meta SET book = book || char(10)",
    "a voucher worth more that nobody redeemed yet": "UPDATE vouchers SET amount = amount + 1 "
    "WHERE " + ONE.format("vouchers WHERE account IS NULL"),
    "a voucher gone that nobody redeemed yet": "DELETE FROM vouchers WHERE "
    + ONE.format("vouchers WHERE account IS NULL"),
}
# What isn't to be found: it says nothing of money that anybody had. AUDIT.md says where else to look.
UNSEEN = {
    "a voucher that nobody imported": "INSERT INTO vouchers VALUES "
    "('999999999999', 1000000000, 30, NULL, NULL)",
    "an account that nobody opened": "INSERT INTO accounts SELECT "
    "'999999999999998', 0, last_moment, 1, 1 FROM meta",
    "the last moment put ahead": "UPDATE meta SET last_moment = last_moment + 60",
    "the moment to which an account is, put back": "UPDATE accounts SET as_of = as_of - 1 WHERE "
    + ONE.format("accounts"),
}
SEEDS = [0, *(pytest.param(seed, marks=pytest.mark.slow) for seed in range(1, 10))]


def found(path: pathlib.Path) -> list[Finding]:
    """What is found in one database."""
    with opened(path) as database:
        return [*strays.findings("01", database), *reckoned.findings("01", database)]


@pytest.mark.parametrize("seed", SEEDS)
def test_nothing_is_found_of_what_the_program_wrote(tmp_path: pathlib.Path, seed: int) -> None:
    assert found(world(tmp_path, seed).path) == []


@pytest.mark.slow
@pytest.mark.parametrize("seed", [1, 2])
def test_nothing_is_found_over_a_change_of_the_clock(tmp_path: pathlib.Path, seed: int) -> None:
    made = World(tmp_path, seed, book=BERLIN, begin=1_774_710_000)  # 28 March 2026, 16:00
    made.plays(200)
    assert found(made.path) == []


@pytest.fixture(scope="module", name="played")
def a_world(tmp_path_factory: pytest.TempPathFactory) -> World:
    return world(tmp_path_factory.mktemp("world"), 5, 400)


def changed(source: pathlib.Path, to: pathlib.Path, change: str) -> int:
    """A copy with a change; how many rows it changed."""
    with (
        contextlib.closing(sqlite3.connect(f"file:{source}?mode=ro", uri=True)) as kept,
        contextlib.closing(sqlite3.connect(to)) as made,
    ):
        kept.backup(made)
        before = made.total_changes
        made.executescript(change)
        made.commit()
        return made.total_changes - before


@pytest.mark.parametrize("what", CHANGES)
def test_a_changed_row_is_found(tmp_path: pathlib.Path, played: World, what: str) -> None:
    copy = tmp_path / "01.db"
    assert changed(played.path, copy, CHANGES[what]) > 0
    assert found(copy) != []


@pytest.mark.parametrize("what", BESIDE)
def test_some_rows_show_beside_an_earlier_copy_alone(
    tmp_path: pathlib.Path, played: World, what: str
) -> None:
    earlier, copy = tmp_path / "earlier.db", tmp_path / "01.db"
    later = "INSERT INTO books SELECT 3, starts + 9000000, content FROM books WHERE number = 2"
    changed(played.path, earlier, later)
    assert changed(earlier, copy, BESIDE[what]) > 0
    assert found(copy) == []
    with opened(copy) as database:
        assert len(list(together.since("01", database, earlier))) == 1


@pytest.mark.parametrize("what", UNSEEN)
def test_some_rows_are_not_to_be_found(tmp_path: pathlib.Path, played: World, what: str) -> None:
    copy = tmp_path / "01.db"
    assert changed(played.path, copy, UNSEEN[what]) == 1
    assert found(copy) == []
    with opened(copy) as database:
        assert list(together.since("01", database, played.path)) == []


@pytest.fixture(scope="module", name="office")
def made() -> Iterator[Stand]:
    with stand() as office:
        office.run("office clearing --write")
        for at in range(49_200, 49_216):
            office.open(str(at), 1_000_000)
            office.debit(str(at), "s1", 60 * (at % 5 + 1))
        office.machine.write(
            "/tmp/v.csv",
            "code,amount,days,scope\n" + "".join(f"{at:012},5000000,30,\n" for at in range(1, 6)),
        )
        office.run("office import --shard 02 /tmp/v.csv")
        for at in range(1, 4):
            office.run(f"office redeem {at:012} {49_199 + at}")
        yield office


def test_an_office_has_no_finding_and_its_sums(office: Stand) -> None:
    told = office.machine.run("office audit --sums /tmp/sums")
    assert told.stdout == "" and told.stderr == "findings 0 in 4 databases\n"
    rows = office.run("cat /tmp/sums/charges.csv").splitlines()
    assert rows[0].startswith("month,shard,book,rating_group,charges,blocks")
    assert sum(int(row.split(",")[4]) for row in rows[1:]) == 16
    credited = [row.split(",") for row in office.run("cat /tmp/sums/buckets.csv").splitlines()[1:]]
    assert sum(int(row[4]) for row in credited) == 16_000_000 + 3 * 5_000_000
    page = office.run("cat /tmp/sums/index.html").partition("<body>")[2]
    tree = xml.etree.ElementTree.fromstring("<body>" + page.partition("</html>")[0])
    assert len(tree.findall(".//svg")) == 5 and "no finding" in page


def test_what_no_shard_sees_alone_is_found(office: Stand) -> None:
    office.run(
        "install -d -o ocs -g ocs /tmp/night; for s in 01 02 03 04; do "
        "office backup $s /tmp/night/$s.db; done"
    )
    audit = "office audit /tmp/night/0?.db"
    office.run(audit)
    home = office.home("49200")
    other = "01" if home != "01" else "02"
    account = f"""sqlite3 /tmp/night/{{}}.db "DELETE FROM {{}} WHERE account = '49200'" """
    for table in (
        "charges",
        "answers",
        "session_groups",
        "sessions",
        "counters",
        "buckets",
        "accounts",
    ):
        office.run("PATH=$PATH; " + account.format(home, table))
    office.run(
        f'sqlite3 /tmp/night/{other}.db "INSERT INTO accounts VALUES '
        "('49200', 0, 1, 1, 1); INSERT INTO vouchers VALUES ('000000000005', 1, 1, NULL, NULL)\""
    )
    twice = next(str(at) for at in range(49_201, 49_216) if office.home(str(at)) == home)
    row = f"INSERT INTO accounts VALUES ('{twice}', 0, 1, 1, 1)"
    office.run(f'sqlite3 /tmp/night/{other}.db "{row}"')
    told = office.machine.run(audit, 1).stdout
    assert f"{other} accounts 49200: is asked for in {home}, where it isn't" in told
    assert f"{other} accounts {twice}: lives in {home}, and no archive says that it moved" in told
    assert "vouchers 000000000005: in more than one shard" in told
    assert "vouchers 000000000001: cleared for 49200, credited to None" in told or home == "02"
    beside = office.machine.run(f"office audit --before /tmp/night /tmp/night/{home}.db", 1)
    assert beside.returncode == 1


def test_a_voucher_that_was_spent_twice_is_found(office: Stand) -> None:
    office.run(
        "mkdir -p /tmp/twice; for s in 01 02 03 04; do office backup $s /tmp/twice/$s.db; done"
    )
    office.run(
        'sqlite3 /tmp/twice/02.db "UPDATE vouchers SET account = NULL WHERE '
        "code = '000000000002'; DELETE FROM answers WHERE name LIKE 'voucher-000000000002-%'\""
    )
    told = office.machine.run("office audit /tmp/twice/0?.db", None)
    assert told.returncode == (0 if office.home("49201") == "02" else 1)
    if told.returncode:
        assert "000000000002: cleared for None, credited to 49201" in told.stdout


def test_what_a_carried_shard_has_in_its_archive_counts(office: Stand) -> None:
    office.run(
        "mkdir -p /tmp/carried; for s in 01 02 03 04; do office backup $s /tmp/carried/$s.db; done"
    )
    archive = "/var/lib/ocs/archive/02-20260101T000000Z.db"
    office.run(f"install -d /var/lib/ocs/archive; cp /tmp/carried/02.db {archive}")
    gone = "DELETE FROM answers WHERE name LIKE 'voucher-%'"
    office.run(f'sqlite3 /tmp/carried/02.db "{gone}"')
    audit = "office audit /tmp/carried/0?.db"
    assert "credited to" not in office.machine.run(audit, None).stdout
    office.run(f"rm {archive}")
    crossed = [f"{at:012}" for at in range(1, 4) if office.home(str(49_199 + at)) != "02"]
    told = office.machine.run(audit, 1).stdout
    assert crossed and all(f"vouchers {code}: cleared for None" in told for code in crossed)
