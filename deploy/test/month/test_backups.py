"""Copies each night, kept for some days in two places; a shard that starts from one."""
from __future__ import annotations

import re
import time
from collections.abc import Iterator

import pytest

from month.machine import DEPLOY, wait_until
from month.stand import Stand, request, stand

CODES = "code,amount,days,scope\n" + "".join(f"{at:012},5000000,30,\n" for at in range(1, 9))
FILE = """
[keeping]
elsewhere = "/srv/elsewhere"
days = 3
"""


@pytest.fixture(scope="module", name="office")
def made() -> Iterator[Stand]:
    with stand() as office:
        office.run(f"cat >> /etc/ocs/office.toml <<'END'{FILE}END\nmkdir /srv/elsewhere")
        office.run("office clearing --write")
        yield office


def at_home(office: Stand, shard: str, first: int, count: int) -> list[str]:
    """Numbers of accounts that live in a shard, opened with money."""
    found: list[str] = []
    for number in range(first, first + 200):
        if len(found) < count and office.home(str(number)) == shard:
            found.append(str(number))
            office.open(str(number), 1_000_000)
    return found


def test_a_night_is_copied_sent_and_measured(office: Stand) -> None:
    assert office.machine.run("office backups --age", 1).stderr.count("no copies") == 2
    told = office.machine.run("office backups").stdout.splitlines()
    night = told[0].rpartition("/")[2]
    assert told == [f"/var/lib/ocs/copies/{night}", f"/srv/elsewhere/{night}"]
    for place in ("/var/lib/ocs/copies", "/srv/elsewhere"):
        assert office.run(f"cd {place}/{night}; sha256sum --check SHA256SUMS").count("OK") == 4
    ages = office.machine.run("office backups --age").stdout
    assert re.fullmatch(r"/var/lib/ocs/copies 0\.\d h\n/srv/elsewhere 0\.\d h\n", ages), ages


def test_old_nights_go_and_the_last_one_stays(office: Stand) -> None:
    office.run("cd /var/lib/ocs/copies; cp -r 2* 20200101T000000Z; mkdir .20200102T000000Z.part")
    plan = office.machine.run("office backups --dry-run").stdout
    assert plan.count("would get copies") == 2
    assert "/var/lib/ocs/copies/20200101T000000Z would be dropped" in plan
    time.sleep(1)
    told = office.machine.run("office backups").stdout
    assert "/var/lib/ocs/copies/20200101T000000Z dropped" in told
    assert "/srv/elsewhere/20200101T000000Z dropped" in told
    assert office.run("ls -A /var/lib/ocs/copies").count("\n") == 2
    office.run("cd /var/lib/ocs/copies; mv $(ls | tail -n 1) /tmp/; mv $(ls) 20200101T000000Z")
    assert "at most 26 h" in office.machine.run("office backups --age", 1).stderr
    office.run("cd /var/lib/ocs/copies; mv 2020* $(ls /srv/elsewhere | head -n 1); mv /tmp/2* .")


def test_a_place_that_is_away_is_told(office: Stand) -> None:
    office.run("mv /srv/elsewhere /srv/away")
    time.sleep(1)
    told = office.machine.run("office backups", 1)
    assert "/var/lib/ocs/copies/" in told.stdout and "on this machine alone" in told.stderr
    office.run("mv /srv/away /srv/elsewhere")
    time.sleep(1)
    assert office.machine.run("office backups").stdout.count("/srv/elsewhere/") == 2


def test_a_full_disk_keeps_nothing_half_made(office: Stand) -> None:
    copies, here = "/var/lib/ocs/copies", "office backups --age"
    office.run(f"mount -t tmpfs -o size=200k tmpfs {copies}")
    told = office.machine.run("office backups", 1)
    left = office.run(f"ls -A {copies}; umount {copies}")
    assert (told.stdout, "No space left" in told.stderr or "full" in told.stderr) == ("", True)
    assert left == ""
    assert office.run(here)


def test_two_runs_are_two_nights(office: Stand) -> None:
    before = set(office.run("ls /var/lib/ocs/copies").split())
    runs = [office.machine.started("office backups") for _ in range(2)]
    told = [each.communicate(timeout=600)[0] for each in runs]
    made = set(office.run("ls -A /var/lib/ocs/copies").split()) - before
    assert len(made) == 2 and all(any(one in text for one in made) for text in told), told


def test_a_night_ahead_of_the_clock_is_not_the_last(office: Stand) -> None:
    last = office.run("ls /var/lib/ocs/copies | tail -n 1").strip()
    office.run(f"cd /var/lib/ocs/copies; cp -r {last} 20990101T000000Z")
    assert "copies 0.0 h" in office.machine.run("office backups --age").stdout
    assert f"/{last}\n" in office.machine.run("office restore 01 --drill").stdout
    office.run("rm -r /var/lib/ocs/copies/20990101T000000Z")


def test_the_timer_is_one_that_systemd_takes(office: Stand) -> None:
    office.run("cp deploy/office-backups.* /etc/systemd/system/ && systemctl daemon-reload")
    office.run("systemd-analyze verify /etc/systemd/system/office-backups.timer")
    before = office.run("ls /var/lib/ocs/copies").count("\n")
    time.sleep(1)
    office.run("systemctl start office-backups.service")
    assert office.run("ls /var/lib/ocs/copies").count("\n") == before + 1


def test_a_copy_is_started_and_no_voucher_spent_twice(office: Stand) -> None:
    own, other = at_home(office, "02", 500_000, 3), at_home(office, "03", 500_000, 3)
    office.machine.write("/tmp/02.csv", CODES)
    office.machine.write("/tmp/03.csv", CODES.replace("00000000000", "00000000010"))
    office.run("office import --shard 02 /tmp/02.csv; office import --shard 03 /tmp/03.csv")
    office.run(f"office redeem 000000000001 {own[0]}; office redeem 000000000002 {other[0]}")
    time.sleep(1)
    office.run("office backups")
    # Lost with the shard: a redemption of its own code, a credit, a session; and what has a part
    # in another shard: its code for the other's account, the other's code for its account.
    office.run(f"office redeem 000000000003 {own[1]}")
    office.run(f"office redeem 000000000004 {other[1]}; office redeem 000000000104 {own[1]}")
    for _ in range(2):
        office.ask("POST", f"/accounts/{own[2]}/credits", {"Amount": 77, "Reference": "late"})
    given = {"Blocks": 9, "Scope": 10, "Reference": "given"}
    office.ask("POST", f"/accounts/{own[2]}/allowances", given)
    office.ask("POST", "/ccr", request(own[2], "talk", 1, 0, 10, 600))
    office.logs('"session":"talk"')
    had = {account: office.available(account) for account in (*own, *other)}
    drill = office.machine.run("office restore 02 --drill").stdout
    assert drill.count(f"lost credit {own[2]} late 77\n") == 1
    assert f"lost allowance {own[2]} given 9\n" in drill
    assert f"lost session {own[2]} talk 0\n" in drill
    assert f"again 000000000004 is spent for {other[1]}\n" in drill
    assert f"again 000000000104 is credited to {own[1]}\n" in drill
    assert "lost allowance 1 credit 1 redemption 1 session 1 amounts 77\n" in drill
    assert {account: office.available(account) for account in (*own, *other)} == had
    told = office.machine.run("office restore 02")
    assert "again 000000000004" in told.stdout and "requests waited" in told.stderr
    assert "spent" not in office.run("ls /var/lib/ocs")
    # Its own code is free again, since its account has lost it; the other's isn't.
    assert office.available(own[1]) == 1_000_000 + 5_000_000
    assert office.available(other[1]) == had[other[1]]
    refused = office.machine.run(f"office redeem 000000000004 {own[1]}", 1)
    assert refused.stdout == '{"Refusal":"O4"}\n'
    assert "Bucket" in office.run(f"office redeem 000000000003 {own[1]}")
    assert "Bucket" in office.run(f"office redeem 000000000004 {other[1]}")
    assert office.available(other[1]) == had[other[1]]
    assert office.is_up("02")


def test_nobody_else_asks_on_the_spare_port(office: Stand) -> None:
    page = (DEPLOY / "README.md").read_text().partition("## The shards' own ports")[2]
    listener = office.started("python3 -m http.server 8199 --bind 127.0.0.1")
    asked = "bash -c 'exec 3<>/dev/tcp/127.0.0.1/8199'"
    wait_until(lambda: office.machine.run(asked, None).returncode == 0, "a port")
    stranger = f"runuser -u nobody -- {asked}"
    office.run(stranger)
    office.run(page.split("```")[1])
    office.run(stranger, 1)
    office.run(asked)
    office.kill(listener)
    assert "02 could start" in office.run("office restore 02 --drill")
    assert office.ask("POST", "/sweep", shard="02")["Result-Code"] == 2001


def test_a_shard_whose_file_is_gone_starts_from_its_copy(office: Stand) -> None:
    office.run("systemctl stop ocs@02; rm /var/lib/ocs/02.db*; systemctl start ocs@02", None)
    told = office.machine.run("office restore 02")
    assert "02 starts from" in told.stdout
    wait_until(lambda: office.is_up("02"), "the start")
    assert office.ask("POST", "/sweep", shard="02")["Result-Code"] == 2001


def test_a_copy_that_lacks_what_was_answered_before_it_is_refused(office: Stand) -> None:
    own = at_home(office, "04", 700_000, 1)
    office.ask("POST", f"/accounts/{own[0]}/credits", {"Amount": 5, "Reference": "gone"})
    office.logs('"reference":"gone"')
    time.sleep(1)
    office.run("office backups")
    night = office.run("ls /var/lib/ocs/copies | tail -n 1").strip()
    place = f"/var/lib/ocs/copies/{night}"
    office.run(f"sqlite3 {place}/04.db \"DELETE FROM answers WHERE name = 'gone'\"")
    assert "aren't those that were made" in office.machine.run("office restore 04", 1).stderr
    office.run(f"cd {place}; sha256sum *.db > SHA256SUMS")
    told = office.machine.run("office restore 04 --drill", 1)
    assert f"lost credit {own[0]} gone 5" in told.stderr and "1 answers of before it" in told.stderr
    office.run("office restore 04 --drill --lacking")
    office.run("office restore 04 --night yesterday", 2)


@pytest.mark.slow
def test_what_was_spent_before_a_carry_isnt_credited_again(office: Stand) -> None:
    own = at_home(office, "02", 900_000, 1)[0]
    office.machine.write("/tmp/small.csv", "code,amount,days,scope\n000000000901,70,1,\n")
    office.run(f"office import --shard 03 /tmp/small.csv; office redeem 000000000901 {own}")
    office.debit(own, "spends it")
    office.run("office carry 02 --unaudited")
    had = office.available(own)
    time.sleep(1)
    office.run("office backups")
    told = office.run("office restore 02")
    assert "02 starts from" in told and "000000000901" not in told
    assert office.available(own) == had


@pytest.mark.slow
def test_a_restore_that_is_killed_leaves_a_shard(office: Stand) -> None:
    account = at_home(office, "01", 800_000, 1)[0]
    office.run("office backups")
    for seconds in (0.3, 0.6, 0.9, 1.2, 1.5, 1.8):
        word = office.started("office restore 01")
        time.sleep(seconds)
        office.kill(word)
        wait_until(lambda: office.is_up("01"), "the start")
        wait_until(lambda: office.home(account) == "01", "the shard")
        assert office.available(account) == 1_000_000
    office.run("office restore 01")
    assert office.available(account) == 1_000_000
