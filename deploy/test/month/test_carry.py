"""A shard's new database: the same sums, the same answers, and one whole shard whatever happens."""
from __future__ import annotations

import dataclasses
import json
import os
import pathlib
import socket
import time
from collections.abc import Iterator

import pytest

from month.machine import program, wait_until
from month.stand import Stand, now, request, stand
from month.worlds import BERLIN, BOOK, World, ocs, world
from office import settings, shards
from office.audit import reckoned
from office.carry import turn
from office.carry.plan import Plan
from office.tables import opened

DAY = 86_400
SEEDS = [1, *(pytest.param(seed, marks=pytest.mark.slow) for seed in range(2, 8))]


def here(folder: pathlib.Path) -> settings.Settings:
    """Settings of a folder: the program as whom the test runs as, and a free port."""
    told = settings.Settings()
    with socket.socket() as free:
        free.bind(("127.0.0.1", 0))
        port = free.getsockname()[1]
    of_office = dataclasses.replace(
        told.office, program=os.environ.get("OCS") or program(), owner="", databases=str(folder)
    )
    keeping = dataclasses.replace(told.keeping, spare_port=port)
    return dataclasses.replace(told, office=of_office, keeping=keeping)


def carried(made: World, at: int, folder: pathlib.Path) -> pathlib.Path:
    """A new database of a world's at a moment, which has the same."""
    new = folder / "new.db"
    with opened(made.path) as database:
        plan = Plan(database, at, lambda _: True)
    assert plan.sessions == []
    turn.make(here(folder), plan, new)
    with opened(new) as database:
        assert plan.differs(Plan(database, at, lambda _: True)) == ""
        assert plan.sums() == Plan(database, at, lambda _: True).sums()
    return new


def asked(made: World, at: int, many: int) -> list[str]:
    """Requests of chance as lines of `replay`; checks and enquiries among them."""
    made.sessions, lines = {}, []
    for turned in range(many):
        at += made.chance.choice((1, 60, 61, 600, 40_000))
        told = made.request(10_000 + turned)
        if told["CC-Request-Type"] == 4 and told["Requested-Action"] == 0:
            told["Requested-Action"] = made.chance.choice((0, 0, 2, 3))
        made.moment = at
        lines.append(f"{at} {json.dumps(told)}")
    return lines


@pytest.mark.parametrize("seed", SEEDS)
def test_both_databases_give_the_same_answers(tmp_path: pathlib.Path, seed: int) -> None:
    made = world(tmp_path, seed, 160)
    at = made.moment + DAY
    new = carried(made, at, tmp_path)
    file = tmp_path / "same.in"
    file.write_text("\n".join(asked(made, at, 160)) + "\n", encoding="utf-8")
    was, is_now = (ocs("replay", path, file).splitlines() for path in (made.path, new))
    assert was == is_now
    assert len(was) == 160 and sum('"Result-Code":2001' in line for line in was) > 40


@pytest.mark.slow
def test_day_and_month_counters_are_carried(tmp_path: pathlib.Path) -> None:
    made = World(tmp_path, 3, book=BERLIN)
    made.plays(150)
    at = made.moment + 2 * 4 * 3600
    with opened(made.path) as database:
        assert Plan(database, at, lambda _: True).counters
    new = carried(made, at, tmp_path)
    file = tmp_path / "same.in"
    file.write_text("\n".join(asked(made, at, 80)) + "\n", encoding="utf-8")
    assert ocs("replay", made.path, file) == ocs("replay", new, file)


def test_an_audit_reckons_what_comes_first_behind_a_carry(tmp_path: pathlib.Path) -> None:
    """No row tells the moments of a new database's first answers, where no counter was carried."""
    made = World(tmp_path, 2)
    at = made.moment + DAY
    new = carried(made, at, tmp_path)
    account = next(one for one in made.accounts if rich(new, one))
    file = tmp_path / "first.in"
    lines = [
        f"{at + 60} {json.dumps(request(account, 'first', 1, 0, 10, 60))}",
        f"{at + 90} {json.dumps(request(account, 'first', 3, 1, 10, -1, 30))}",
    ]
    file.write_text("\n".join(lines) + "\n", encoding="utf-8")
    assert ocs("replay", new, file).count('"Result-Code":2001,"Session-Id"') == 2
    with opened(new) as database:
        assert list(reckoned.findings("01", database)) == []


def rich(database: pathlib.Path, account: str) -> bool:
    """Whether an account has money for any group."""
    asked = "SELECT sum(available) FROM buckets WHERE account = ? AND scope IS NULL"
    with opened(database) as read:
        return int(read.one(asked, account) or 0) > 1_000_000


def test_a_turn_is_behind_the_last_command(tmp_path: pathlib.Path) -> None:
    """A copy that was made before it has an earlier last moment, one of behind it the same or a later."""
    one = shards.of(here(tmp_path))[0]
    ocs("init", one.database, BOOK)
    for account, ahead in (("49151", 0), ("49152", 900_000)):
        at = now() + ahead
        ocs("open", one.database, account, "--at", at)
        assert (turn.moment_behind(one) > at) == (ahead == 0)


@pytest.fixture(scope="module", name="office")
def made() -> Iterator[Stand]:
    with stand() as office:
        office.run("office clearing --write")
        rows = "".join(f"{at},1000000\n" for at in range(49_200, 49_240))
        office.machine.write("/tmp/new.csv", "account,amount\n" + rows)
        office.run("office load /tmp/new.csv")
        office.machine.write(
            "/tmp/v.csv",
            "code,amount,days,scope\n" + "".join(f"{at:012},5000000,30,\n" for at in range(1, 6)),
        )
        office.run("office import --shard 02 /tmp/v.csv")
        yield office


def of_shard(office: Stand, shard: str) -> list[str]:
    """The accounts of the file that live in a shard."""
    return [str(at) for at in range(49_200, 49_240) if office.home(str(at)) == shard]


def test_a_shard_goes_on_with_its_money_alone(office: Stand) -> None:
    own = of_shard(office, "02")
    for account in own:
        office.debit(account, "before", 120)
    office.run(f"office redeem 000000000001 {own[0]}; office bar {own[1]}")
    had = {account: office.available(account) for account in own}
    month = office.run("date -u +%Y%m").strip()
    old = office.run(f"office statement {own[0]} {month}")
    dry = office.machine.run("office carry 02 --dry-run").stdout
    told = office.machine.run("office carry 02")
    lines = told.stdout.splitlines()
    assert lines[:4] == dry.splitlines()[:4]
    assert lines[0] == f"02 accounts {len(own) + 1} barred 1"
    assert f"money {sum(had.values())} " in lines[1] and "vouchers 4 amounts 20000000" in lines[2]
    assert {account: office.available(account) for account in own} == had
    assert office.ask("GET", f"/accounts/{own[1]}")["Barred"] is True
    archive = lines[4].removeprefix("02 archive ")
    new, of_old = (
        office.run(f"office statement {own[0]} {month} {more}").splitlines()
        for more in ("", f"--archive {archive}")
    )
    # The whole month is on a statement; the buckets are those of now.
    uses = old.splitlines().index(next(line for line in old.splitlines() if "TOTAL" in line)) + 1
    assert of_old[1:] == old.splitlines()[1:] and new[1:uses] == of_old[1:uses]
    assert office.table("02", "SELECT count(*) FROM charges") == ["0"]
    # A credit that is repeated isn't credited again; a spent code isn't added again.
    repeat = {"Amount": 1_000_000, "Reference": "new/1"}
    again = office.ask("POST", f"/accounts/{own[0]}/credits", repeat)
    assert again == {"Bucket": 1, "Result-Code": 2001} and office.available(own[0]) == had[own[0]]
    assert "as spent" in office.run("office import /tmp/v.csv", 1)
    office.run("office audit")


def test_a_live_session_is_refused_before_the_stop(office: Stand) -> None:
    own = of_shard(office, "03")
    office.ask("POST", "/ccr", request(own[0], "live", 1, 0, 10, 600))
    told = office.machine.run("office carry 03", 1)
    assert f"shard 03 has 1 live sessions: {own[0]} live" in told.stderr
    assert "waited" not in told.stderr and office.is_up("03")
    office.ask("POST", "/ccr", request(own[0], "live", 3, 1, 10, -1, 60))
    office.run("office carry 03")


# The timer as it is, but for its hours: each second is one of its moments.
EACH_SECOND = "[Timer]\nOnCalendar=\nOnCalendar=*:*:*\nRandomizedDelaySec=0\nAccuracySec=10ms\n"


def test_the_timer_tries_until_no_session_is_live_and_then_once_a_night(office: Stand) -> None:
    own, timer = of_shard(office, "04"), "office-carry@04.timer"
    office.run("cp deploy/office-carry@.* /etc/systemd/system/ && systemctl daemon-reload")
    office.run(f"systemd-analyze verify /etc/systemd/system/{timer}")
    office.run(f"mkdir -p /etc/systemd/system/{timer}.d")
    office.machine.write(f"/etc/systemd/system/{timer}.d/each.conf", EACH_SECOND)
    office.ask("POST", "/ccr", request(own[0], "all-night", 1, 0, 10, 600))
    office.run(f"systemctl daemon-reload; systemctl start {timer}")
    said = "journalctl --no-pager --unit office-carry@04 --output cat"
    wait_until(lambda: office.run(said).count("has 1 live sessions") >= 2, "two tries")
    office.ask("POST", "/ccr", request(own[0], "all-night", 3, 1, 10, -1, 60))
    wait_until(lambda: "was carried in the last 20 hours" in office.run(said), "the carry")
    office.run(f"systemctl stop {timer} office-carry@04.service")
    assert office.run(said).count("04 archive ") == 1 and office.is_up("04")


# Prints the accounts of a copy whose requests may be repeated, with their requests.
EXPECTED = """
import pathlib, sys
sys.path.insert(0, "/srv/ocs/deploy")
from office import settings, tables
from office.carry import repeats
with tables.opened(pathlib.Path("/tmp/copy.db")) as database:
    print("\\n".join(repeats.expected(settings.read(), database)))
"""


def test_a_debit_whose_answer_did_not_arrive_is_charged_once(office: Stand) -> None:
    one = of_shard(office, "03")[1]
    had = office.available(one)
    body = json.dumps(request(one, "unanswered", 4, 0, 10, 60))
    process = process_of(office, "03")
    office.run(f"kill -STOP {process}")
    office.run(
        "curl -sS --max-time 5 --unix-socket /run/haproxy/office.sock -H 'Content-Type: "
        f"application/json' -d '{body}' http://office/ccr",
        28,
    )
    office.run(f"kill -CONT {process}")
    wait_until(lambda: office.available(one) < had, "the debit")
    charged = office.available(one)
    office.logs('"session":"unanswered"')
    office.machine.write("/tmp/expected.py", EXPECTED)
    told = office.run("office backup 03 /tmp/copy.db > /dev/null; python3 /tmp/expected.py")
    assert told.strip() == f"{one} unanswered 0"
    office.run("office carry 03")
    assert office.debit(one, "unanswered")["Result-Code"] == 2001
    assert office.available(one) == charged


def process_of(office: Stand, shard: str) -> str:
    """The process that serves a shard; 0 where none does."""
    return office.run(f"systemctl show --property MainPID --value ocs@{shard}").strip()


# The shards are on a disk of their own, as they are again in the end. Each has written by then what it
# writes at its start.
SMALL = """
set -e
systemctl stop ocs@01 ocs@02 ocs@03 ocs@04 office-archive.service
mv /var/lib/ocs /var/lib/kept
install -d -o ocs -g ocs -m 750 /var/lib/ocs
mount -t tmpfs -o size=100M,mode=750,uid=$(id -u ocs),gid=$(id -g ocs) tmpfs /var/lib/ocs
cp -a /var/lib/kept/. /var/lib/ocs/
systemctl start ocs@01 ocs@02 ocs@03 ocs@04
until office sweep > /dev/null 2>&1; do sleep 0.2; done
"""
LARGE = """
set -e
systemctl stop ocs@01 ocs@02 ocs@03 ocs@04 office-archive.service
rm -r /var/lib/kept
cp -a /var/lib/ocs /var/lib/kept
umount /var/lib/ocs
rmdir /var/lib/ocs
mv /var/lib/kept /var/lib/ocs
systemctl start ocs@01 ocs@02 ocs@03 ocs@04
"""
# Leaves so many bytes.
FULL = """
head -c 200M /dev/zero > /var/lib/ocs/filler 2> /dev/null || true
truncate -s -$1 /var/lib/ocs/filler
"""
# Parts of names that nothing has once a carry has ended.
HALF_MADE = (".new.db", ".next", ".turning", ".copies-", ".carry-")


@pytest.mark.slow
def test_a_full_disk_leaves_the_shard(office: Stand) -> None:
    """There is a little more room at each try, until it is enough: the disk is full for the copy of the
    shard, then for the requests to the new database, at last for whole files of both."""
    office.run("office carry 02")
    own, said = of_shard(office, "02"), list[str]()
    had = {account: office.available(account) for account in own}
    office.run(SMALL)
    for free in range(100_000, 2_000_000, 50_000):
        office.run(f"set -- {free}\n{FULL}")
        told = office.machine.run("office carry 02", None)
        wait_until(lambda: office.is_up("02"), "the start")
        office.run("rm /var/lib/ocs/filler; systemctl restart ocs@02")
        wait_until(lambda: office.home(own[0]) == "02", "the shard")
        assert {account: office.available(account) for account in own} == had
        left = office.run("find /var/lib/ocs -printf '%f\\n'")
        assert not [name for name in HALF_MADE if name in left], left
        if told.returncode == 0:
            break
        said.append(told.stderr)
    assert told.returncode == 0 and "copy" in said[0] and "the copy isn't whole" in said[-1], said
    assert any("on the spare port: 503" in each for each in said), said
    office.run(LARGE)
    wait_until(lambda: office.home(own[0]) == "02", "the shard")


def test_what_the_audit_finds_is_refused(office: Stand) -> None:
    office.run(
        "systemctl stop ocs@01; sqlite3 /var/lib/ocs/01.db 'UPDATE buckets SET credited = "
        "credited + 5, available = available + 5 WHERE number = 1'; systemctl start ocs@01"
    )
    wait_until(lambda: office.is_up("01"), "the start")
    told = office.machine.run("office carry 01", 1)
    assert "the audit has" in told.stderr and "waited" not in told.stderr
    office.run("office carry 01 --unaudited")


@pytest.mark.slow
def test_a_carry_that_is_killed_leaves_a_whole_shard(office: Stand) -> None:
    own = of_shard(office, "04")
    had = {account: office.available(account) for account in own}
    for tenths in range(4, 30, 2):
        word = office.started("office carry 04")
        time.sleep(tenths / 10)
        office.kill(word)
        wait_until(lambda: office.is_up("04"), "the start")
        wait_until(lambda: office.home(own[0]) == "04", "the shard")
        assert {account: office.available(account) for account in own} == had
    office.run("office carry 04")
    assert {account: office.available(account) for account in own} == had
    assert office.run("ls -A /var/lib/ocs | grep -c -e 04.new -e next", 1).strip() == "0"
    assert "turning" not in office.run("ls /var/lib/ocs/archive")
    office.run("office audit", None)


def test_a_shard_ahead_of_the_clock_is_cured(office: Stand) -> None:
    own = of_shard(office, "02")
    later = now() + 900_000_000
    office.run(
        f"systemctl stop ocs@02; runuser -u ocs -- ocs credit /var/lib/ocs/02.db {own[2]} 7 r "
        f"--at {later}; office check --start 02 --meant; systemctl start ocs@02"
    )
    wait_until(lambda: office.home(own[2]) == "02", "the shard")
    had = office.available(own[2])
    assert office.ask("GET", f"/accounts/{own[2]}")["Moment"] >= later
    office.run("office bar " + own[2], 1)
    office.run("office carry 02")
    told = office.ask("GET", f"/accounts/{own[2]}")
    assert abs(told["Moment"] - now()) < 600 and office.available(own[2]) == had
    assert office.debit(own[2], "cured")["Result-Code"] == 2001
