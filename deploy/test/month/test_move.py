"""Accounts that move while all are asked: nothing is lost, and nothing is done twice."""
from __future__ import annotations

import json
import subprocess
import time
from collections.abc import Iterator

import pytest

from month.machine import wait_until
from month.stand import PRICE, Stand, doors, request, stand

FIRST, COUNT = 49_200, 48


@pytest.fixture(scope="module", name="office")
def made() -> Iterator[Stand]:
    with stand() as office:
        rows = "".join(f"{at},9000000\n" for at in range(FIRST, FIRST + COUNT))
        office.machine.write("/tmp/new.csv", "account,amount\n" + rows)
        office.run("office load /tmp/new.csv; office clearing --write > /dev/null")
        doors(office.machine, 1)
        assert "has the books of 01: 1" in office.run("office new-shard 05")
        office.run("systemctl start ocs@05")
        wait_until(lambda: office.is_up("05"), "the new shard")
        yield office


def of_shard(office: Stand, shard: str) -> list[str]:
    """The accounts of the test that live in a shard."""
    return [one for one in map(str, range(FIRST, FIRST + COUNT)) if office.home(one) == shard]


def test_one_account_moves_with_what_it_has(office: Stand) -> None:
    own = of_shard(office, "02")
    one = own[0]
    office.debit(one, "s1")
    office.ask("POST", f"/accounts/{one}/allowances", {"Blocks": 7, "Scope": 10, "Reference": "a"})
    office.ask("POST", "/ccr", request(own[1], "live", 1, 0, 10, 600))
    office.run(f"office bar {one}")
    had = office.ask("GET", f"/accounts/{one}")["Buckets"]
    assert office.machine.run(f"office move --from 02 --to 05 {one} --dry-run").stdout.startswith(
        "1 "
    )
    told = office.machine.run(f"office move --from 02 --to 05 {one} {own[1]}", 1)
    assert told.stdout == "moved 1 stay 1\n" and f"{own[1]} stays: live session" in told.stderr
    assert office.home(one) == "05" and office.home(own[1]) == "02"
    found = office.ask("GET", f"/accounts/{one}")
    assert found["Barred"] is True
    assert [(each["Available"], each["From"], each["Until"]) for each in found["Buckets"]] == [
        (each["Available"], each["From"], each["Until"]) for each in had if each["Available"]
    ]
    assert office.run("cat /etc/ocs/moved") == f"{one} 05\n"
    office.run(f"office unbar {one}")
    office.run("office audit")
    again = office.machine.run(f"office move --from 02 --to 05 {one}")
    assert again.stdout == "moved 0 stay 0\n"
    ends = request(own[1], "live", 3, 1, 10, -1, 0)
    assert office.ask("POST", "/ccr", ends)["Result-Code"] == 2001


def test_an_account_moves_back_only_where_it_has_no_rows(office: Stand) -> None:
    one = of_shard(office, "05")[0]
    told = office.machine.run(f"office move --from 05 --to 02 {one}", 1)
    assert "it has rows in shard 02 already" in told.stderr and office.home(one) == "05"
    assert "move.json" not in office.run("ls /var/lib/ocs")
    assert office.debit(one, "still")["Result-Code"] == 2001


@pytest.mark.slow
def test_what_waits_in_the_queue_is_charged_before_the_move(office: Stand) -> None:
    *others, one = of_shard(office, "04")[:4]
    had = office.available(one)
    process = office.run("systemctl show --property MainPID --value ocs@04").strip()
    office.run(f"kill -STOP {process}")
    asks = [at_the_gateways_door(office, each, count) for count, each in enumerate([*others, one])]
    # One more than waits is under way in the shard that stands still.
    word = office.started(f"office move --from 04 --to 05 {one}")
    show = "echo 'show map /etc/ocs/moved' | socat stdio /run/haproxy/admin.sock"
    wait_until(lambda: f" {one} moving" in office.run(show), "the move's begin")
    time.sleep(2)
    office.run(f"kill -CONT {process}")
    answers = [each.communicate(timeout=600)[0] for each in asks]
    assert all('"Result-Code":2001' in each for each in answers), answers
    assert "moved 1 stay 0" in word.communicate(timeout=600)[0]
    assert office.home(one) == "05" and office.available(one) == had - PRICE
    office.run("office audit")


def at_the_gateways_door(office: Stand, account: str, waiting: int) -> subprocess.Popen[str]:
    """A debit of an event, which waits behind so many that a gateway has asked for already."""
    body = request(account, "queued", 4, 0, 30, -1)
    body["Multiple-Services-Credit-Control"][0]["Requested-Service-Unit"] = {
        "CC-Service-Specific-Units": 1
    }
    asked = office.machine.started(
        f"curl -sS --max-time 300 -H 'Content-Type: application/json' -d '{json.dumps(body)}' "
        "http://127.0.0.1:8080/ccr"
    )
    state = (
        "echo 'show stat' | socat stdio /run/haproxy/admin.sock | grep ^shards,04, | cut -d, -f3"
    )
    wait_until(lambda: int(office.run(state)) >= waiting, "the queue")
    return asked


def test_a_copy_without_accounts_that_moved_since_is_refused(office: Stand) -> None:
    one = of_shard(office, "01")[0]
    office.run("office backups")
    assert office.run(f"office move --from 01 --to 05 {one}") == "moved 1 stay 0\n"
    told = office.machine.run("office restore 05 --drill", 1)
    assert f"1 accounts that moved to shard 05 since: {one}\n" in told.stderr
    assert "05 could start" in office.run("office restore 05 --drill --lacking")
    time.sleep(1)
    office.run("office backups")
    assert "05 could start" in office.run("office restore 05 --drill")


def test_a_carry_leaves_nobody_behind_whose_line_is_lost(office: Stand) -> None:
    moved = office.run("cat /etc/ocs/moved").split()[0]
    office.run("cp /etc/ocs/moved /tmp/moved; truncate -s 0 /etc/ocs/moved")
    told = office.machine.run("office carry 05", 1)
    office.run("cp /tmp/moved /etc/ocs/moved")
    assert f"05 accounts {moved}: moved here by its archive, and lives in" in told.stderr
    assert "waited" not in told.stderr
    assert "05 accounts" in office.run("office carry 05")


@pytest.mark.slow
def test_half_a_shard_moves_while_all_are_asked(office: Stand) -> None:
    everyone = list(map(str, range(FIRST, FIRST + COUNT)))
    before = {account: office.available(account) for account in everyone}
    own = of_shard(office, "03")
    asks = office.asks(FIRST, COUNT, 12, "half")
    told = office.machine.run("office move --from 03 --to 05 --half --batch 3")
    done, again = asks.communicate(timeout=600)[0].split()
    assert told.stdout == f"moved {len(own) // 2} stay 0\n"
    assert int(done) == 12 * COUNT
    assert {account: office.available(account) for account in everyone} == {
        account: amount - 12 * PRICE for account, amount in before.items()
    }
    assert sorted(of_shard(office, "03") + own[1::2]) == sorted(own)
    assert office.run("office move --from 03 --to 05 --half") == "moved 0 stay 0\n"
    office.run("office audit")


@pytest.mark.slow
def test_a_move_that_is_killed_is_ended(office: Stand) -> None:
    everyone = list(map(str, range(FIRST, FIRST + COUNT)))
    before = {account: office.available(account) for account in everyone}
    kills = (("01", 3), ("01", 6), ("04", 9), ("04", 13), ("04", 18), ("01", 24))
    show = "echo 'show map /etc/ocs/moved' | socat stdio /run/haproxy/admin.sock"
    for turn, (shard, tenths) in enumerate(kills):
        asks = office.asks(FIRST, COUNT, 1, f"kill{turn}-")
        word = office.started(f"office move --from {shard} --to 05 --all --batch 4")
        time.sleep(tenths / 10)
        office.kill(word)
        assert int(asks.communicate(timeout=600)[0].split()[0]) == COUNT
        wait_until(lambda: "moving" not in office.run(show), "the guard")
        assert "move.json" not in office.run("ls /var/lib/ocs")
    for shard in ("01", "04"):
        office.run(f"office move --from {shard} --to 05 --all", None)
        assert of_shard(office, shard) == []
    office.run("office audit")
    assert {account: office.available(account) for account in everyone} == {
        account: amount - len(kills) * PRICE for account, amount in before.items()
    }


@pytest.mark.slow
def test_a_move_behind_a_reload_waits_for_the_process_of_before(office: Stand) -> None:
    """A request is under way in the process that was replaced, which goes by the file as it was."""
    one = of_shard(office, "03")[0]
    had = office.available(one)
    process = office.run("systemctl show --property MainPID --value ocs@03").strip()
    office.run(f"kill -STOP {process}")
    before = at_the_gateways_door(office, one, 0)
    time.sleep(1)
    office.run("systemctl reload haproxy")
    show = "echo 'show map /etc/ocs/moved' | socat stdio /run/haproxy/admin.sock"
    word = office.started(f"office move --from 03 --to 05 {one}")
    time.sleep(4)
    assert word.poll() is None and "moving" not in office.run(show)
    office.run(f"kill -CONT {process}")
    assert '"Result-Code":2001' in before.communicate(timeout=600)[0]
    assert "moved 1 stay 0" in word.communicate(timeout=600)[0]
    assert office.home(one) == "05" and office.available(one) == had - PRICE
    office.run("office audit")


def test_what_a_reload_took_out_of_the_map_is_gone(office: Stand) -> None:
    """HAProxy was reloaded between a look at its map and the word that takes an account out of it."""
    imports = "from office import settings; from office.carry import runtime"
    for value, status in (("", 0), ("05", 1)):
        put = f'runtime.put(settings.read(), "1", "{value}", {{"1": "moving"}})'
        told = office.run(f"cd deploy && python3 -c '{imports}; {put}'", status)
        assert ("haproxy: set map" in told) == bool(status)


@pytest.mark.slow
def test_a_reload_in_a_move_loses_nothing(office: Stand) -> None:
    everyone = list(map(str, range(FIRST, FIRST + COUNT)))
    before = {account: office.available(account) for account in everyone}
    asks = office.asks(FIRST, COUNT, 6, "reloaded")
    for _ in range(3):
        word = office.started("office move --from 02 --to 05 --all --batch 2")
        while word.poll() is None:
            time.sleep(0.7)
            office.run("systemctl reload haproxy", None)
        told = word.communicate(timeout=600)[0]
        assert word.returncode == 0 or "reloaded meanwhile" in told or "stays" in told, told
    done, _ = asks.communicate(timeout=900)[0].split()
    assert int(done) == 6 * COUNT
    assert {account: office.available(account) for account in everyone} == {
        account: amount - 6 * PRICE for account, amount in before.items()
    }
    office.run("office carry 05")
    office.run("office move --from 02 --to 05 --all")
    assert of_shard(office, "02") == []
    office.run("office audit")


@pytest.mark.slow
def test_the_doors_go_by_the_file_after_a_restart(office: Stand) -> None:
    own = of_shard(office, "05")
    assert len(own) > COUNT // 2
    office.run("systemctl restart haproxy")
    wait_until(lambda: office.home(own[0]) == "05", "the doors")
    assert of_shard(office, "05") == own
    moved = dict(row.split() for row in office.run("cat /etc/ocs/moved").splitlines())
    assert sorted(moved) == sorted(own) and set(moved.values()) == {"05"}
    assert json.dumps(office.debit(own[0], "after")).count("2001") == 2


@pytest.mark.slow
def test_a_shard_is_carried_without_a_pause(office: Stand) -> None:
    """Its accounts move to another shard and, once it is carried, back; only those that move wait."""
    everyone = list(map(str, range(FIRST, FIRST + COUNT)))
    before = {account: office.available(account) for account in everyone}
    own = of_shard(office, "03")
    office.machine.write("/tmp/own", "".join(f"{account}\n" for account in own))
    asks = office.asks(FIRST, COUNT, 6, "no-pause")
    there = f"moved {len(own)} stay 0\n"
    assert own and office.run("office move --from 03 --to 05 --all --batch 4").endswith(there)
    office.run("office carry 03")
    back = office.run("office move --from 05 --to 03 --list /tmp/own --batch 4")
    assert back.endswith(there), back
    assert int(asks.communicate(timeout=600)[0].split()[0]) == 6 * COUNT
    assert of_shard(office, "03") == own
    assert {account: office.available(account) for account in everyone} == {
        account: amount - 6 * PRICE for account, amount in before.items()
    }
    office.run("office audit")
