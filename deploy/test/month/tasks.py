"""What an operator does in a month, each task by its word, and what the model says of it."""
from __future__ import annotations

import dataclasses
import json
import pathlib
import time

from month.machine import wait_until
from month.model import Body
from month.played import BOOKS, FILE, SUBSCRIBERS, Month, at
from month.traffic import TERMINATION, UPDATE
from office import statements
from office.carry.plan import Plan
from office.tables import opened

MONTH = "202703"
CODES = {"02": range(1, 14), "03": range(101, 114), "04": range(201, 214)}
# Tables of the version before, which lack two: nothing may be in them yet.
BACK = "DROP TABLE covered; DROP TABLE allowance_buckets; UPDATE meta SET version = 2"
EMPTY = "SELECT (SELECT count(*) FROM covered) + (SELECT count(*) FROM allowance_buckets)"
# What is used grows until there is no room for more.
FULL = """
until mount -o remount,size=$(($(df --output=used -k /var/lib/ocs | tail -n 1) + 64))k /var/lib/ocs
do sleep 0.05; done 2> /dev/null
"""
MOST_REPEATS = 1500
LOAD = "account,amount,blocks,scope,until,reference\n"


def first_day(month: Month) -> None:
    """Accounts with money, clearing accounts, vouchers."""
    amounts = {one: 5_000_000 + 100_000 * (int(one) % 50) for one in month.accounts}
    rows = "".join(f"{account},{amount},,,,c1\n" for account, amount in amounts.items())
    month.office.machine.write("/tmp/new.csv", LOAD + rows)
    told = month.word("office load /tmp/new.csv")
    assert told == f"opened {SUBSCRIBERS} there 0 credited {SUBSCRIBERS} refused 0\n"
    month.word("office clearing --write")
    moment, model = month.clock.now, month.model
    for account, amount in amounts.items():
        model.asked("PUT", f"/accounts/{account}", None, moment)
        body: Body = {"Amount": amount, "Reference": "c1"}
        model.asked("POST", f"/accounts/{account}/credits", body, moment)
    for account in month.office.run("cat /etc/ocs/clearing").split():
        model.clearings[month.office.home(account)] = account
        model.asked("PUT", f"/accounts/{account}", None, moment)
    vouchers(month)
    month.balances(moment)


def vouchers(month: Month) -> None:
    """Codes of three shards."""
    for shard, numbers in CODES.items():
        lines = "".join(f"{code:012},2500000,{code % 7 + 1},\n" for code in numbers)
        month.office.machine.write("/tmp/v.csv", "code,amount,days,scope\n" + lines)
        month.word(f"office import --shard {shard} /tmp/v.csv")
        for code in numbers:
            month.model.office.load(f"{code:012}", 2_500_000, code % 7 + 1, None, month.clock.now)
            month.model.codes[f"{code:012}"] = shard


def upgrade(month: Month) -> None:
    """The shards are of the version before; a new program is installed, and migrates them."""
    month.office.run("systemctl stop ocs@01 ocs@02 ocs@03 ocs@04")
    for shard in ("01", "02", "03", "04"):
        path = f"/var/lib/ocs/{shard}.db"
        assert month.office.run(f'sqlite3 {path} "{EMPTY}"').strip() == "0"
        month.office.run(f'sqlite3 {path} "{BACK}"; chown ocs: {path}*')
        old = f"runuser -u ocs -- ocs statement {path} {month.accounts[0]} {MONTH}"
        assert "open fault 6" in month.office.run(old, 1)
    new = "/usr/local/bin/ocs.new"
    month.office.run(f"cp -p /usr/local/bin/ocs {new} && mv {new} /usr/local/bin/ocs")
    told = month.word("office migrate")
    assert told == "".join(f"{each:02} version 3\n" for each in range(1, 5))
    month.word("office up")


def allowances(month: Month) -> None:
    """Blocks for every fifth subscriber, until the end of the month."""
    end = at(32, 0, 0)
    rows = [(account, int(account) % 40 + 5) for account in month.accounts[::5]]
    lines = "".join(f"{account},,{blocks},10,{end},a1\n" for account, blocks in rows)
    month.office.machine.write("/tmp/blocks.csv", LOAD + lines)
    assert "refused 0" in month.word("office load /tmp/blocks.csv")
    for account, blocks in rows:
        body: Body = {"Blocks": blocks, "Scope": 10, "Until": end, "Reference": "a1"}
        month.model.asked("POST", f"/accounts/{account}/allowances", body, month.clock.now)


def redeem(month: Month, first: int, last: int) -> None:
    """Some codes of each shard are redeemed, for accounts of that shard and of others."""
    for numbers in CODES.values():
        for each in range(first, last):
            code, account = f"{numbers[each]:012}", month.accounts[each]
            told = month.word(f"office redeem {code} {account}")
            home = month.doors.homes[account]
            wanted = month.model.redeem(code, account, home, month.clock.now)
            assert json.loads(told) == wanted and "Bucket" in wanted, told


def bars(month: Month) -> None:
    """Two stolen SIMs are barred, and asked for."""
    those = month.accounts[:2]
    month.word(f"office bar {' '.join(those)}")
    for one in those:
        month.model.office.bar(one, True, month.clock.now)
    month.asks(month.clock.now, [month.traffic.event(one, f"{one};stolen") for one in those])


def unbars(month: Month) -> None:
    """One of them is found."""
    one = month.accounts[0]
    month.word(f"office unbar {one}")
    month.model.office.bar(one, False, month.clock.now)


def new_book(month: Month, number: int, day: int) -> None:
    """New prices from a day on, tried before."""
    words = f"/tmp/book{number}.toml --from 2027-03-{day:02}T00:00"
    assert "+" in month.word(f"office trial {words}")
    told = month.word(f"office book {words}")
    assert told.count("has the book") == len(month.shards())
    month.model.office.shelf.add(at(day, 0, 0), BOOKS[number - 1])


def full_disk(month: Month) -> None:
    """The disk is full while subscribers ask: words are refused, and in the end everything was answered
    once."""

    def is_full() -> None:
        month.office.run(FULL)
        month.word("office backups", 1)
        month.word("office carry 03", 1)
        month.office.run("systemctl restart ocs@01 ocs@02 ocs@03 ocs@04", None)
        month.office.run("mount -o remount,size=16G /var/lib/ocs")
        month.office.run("systemctl restart ocs@01 ocs@02 ocs@03 ocs@04", None)

    month.asks(month.clock.now, month.traffic.events(0.4, "full"), is_full)


def keep(month: Month) -> None:
    """What the night's copy of shard 02 has."""
    spent = {code: account for code, (_, account) in month.model.office.vouchers.items()}
    month.kept = month.model.kept(month.of("02")), spent


def restore(month: Month) -> None:
    """Shard 02 starts from the night's copy and loses the day, but no code comes back that others had."""
    night = time.strftime("%Y%m%dT%H%M%SZ", time.gmtime(at(month.day - 1, 23, 30)))
    assert "could start from" in month.word("office restore 02 --drill")
    told = month.word("office restore 02")
    assert f"copies/{night}; what was there" in told and "lost nothing" not in told
    wait_until(lambda: month.office.is_up("02"), "the start")
    accounts, spent = month.kept
    month.model.restored("02", accounts, spent, month.doors.homes, month.clock.now)
    month.balances(month.clock.now)


def carry(month: Month, shard: str) -> None:
    """A shard goes on without its past, which its archive has; the night's copy can be started from."""
    told = month.word(f"office carry {shard}")
    archive = next(line for line in told.splitlines() if " archive " in line).split()[2]
    without_past(month, month.fetched(archive), month.of(shard))


def without_past(month: Month, database: pathlib.Path, accounts: list[str]) -> None:
    """Accounts of a database go on in another one; it keeps their past as the model has it."""
    moment, those = month.clock.now, set(accounts)
    with opened(database) as read:
        plan = Plan(read, moment, lambda account: account in those)
        exports = dict(statements.exports(read, MONTH))
        texts = dict(statements.statements(read, MONTH, moment))
    assert set(plan.accounts) == those and not plan.sessions
    for account, old in month.model.carry(accounts, plan.requests(), moment).items():
        assert exports[account] == old.export(MONTH)
        assert texts[account] == old.statement(MONTH, moment)
        month.counts["texts"] += 2
    month.balances(moment)


def repeats(month: Month, shard: str) -> None:
    """What was accepted for accounts of a shard in another database is asked again, some of it while the
    archive's service is killed, and has its first answer, byte for byte."""
    own = set(month.of(shard))
    those = [one for one in month.kept_answers if one.account in own]
    those = those[:: len(those) // MOST_REPEATS + 1]
    first = [dataclasses.replace(one, answer="") for one in those]

    def kill() -> None:
        month.office.run("systemctl kill -s KILL office-archive", None)

    month.doors.ask(first, kill)
    for was, now in zip(those, first):
        assert now.answer == was.answer, f"day {month.day}: {was}: {now.answer}"
    month.counts["repeats"] += len(those)
    month.balances(month.clock.now)


def one_more(month: Month) -> None:
    """A fifth shard, to which half of the first moves while the others' subscribers ask."""
    month.office.machine.write("/etc/ocs/office.toml", FILE.format(more=1))
    month.word("office new-shard 05")
    month.word("office up")
    month.office.run("office backup 01 /tmp/before.db")
    own = month.of("01")
    asked = [one for one in month.traffic.events(0.5, "moving") if one.account not in own]
    month.asks(month.clock.now, asked, lambda: move(month))
    moved = [row.split()[0] for row in month.office.run("cat /etc/ocs/moved").splitlines()]
    assert 2 * len(moved) in (len(own) - 2, len(own) - 1, len(own))
    without_past(month, month.fetched("/tmp/before.db"), moved)


def move(month: Month) -> None:
    """Half of the first shard moves."""
    assert "stay 0" in month.word("office move --from 01 --to 05 --half")


def drill(month: Month) -> None:
    """A night's copy of a shard that was carried since could be started from."""
    assert "could start from" in month.word("office restore 03 --drill")


def audit(month: Month, which: int = -1) -> None:
    """An audit of all shards beside one of the nights that are kept, else the last."""
    night = sorted((month.root / "var/lib/ocs/copies").iterdir())[which].name
    told = month.word(f"office audit --before /var/lib/ocs/copies/{night}")
    assert told == f"findings 0 in {len(month.shards())} databases\n"


def summer_time(month: Month) -> None:
    """Sessions over the change of the clock, from 01:50 to 03:10, which are 20 minutes."""
    month.asks(at(28, 1, 50), month.traffic.begin(0.2, "summer"))
    month.asks(
        at(28, 3, 10), month.traffic.go_on(UPDATE) + month.traffic.events(0.2, "summer-event")
    )
    month.asks(at(28, 3, 40), month.traffic.go_on(TERMINATION))


def last_hour(month: Month) -> None:
    """Sessions that go on in the first hour of April, and are live in the end."""
    month.asks(at(31, 23, 40), month.traffic.begin(0.2, "last") + month.traffic.events(0.2, "late"))
    month.asks(at(32, 0, 10), month.traffic.go_on(UPDATE) + month.traffic.events(0.2, "april"))
    month.clock.set(at(32, 0, 20))
    month.sweep()
