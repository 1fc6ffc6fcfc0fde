"""The words `check` and `status`; `up` is tried under systemd by tools/play lines."""
from __future__ import annotations

import re
import time

from support.callers import Caller
from support.world import World


def test_check_says_what_each_door_lets_in(world: World) -> None:
    told = world.command("check").splitlines()
    assert [line.split()[0] for line in told if line[0] != " "] == ["desk", "scripts"]
    assert "    for whoever reaches it" in told
    assert "    POST /ccr" in told[2]


def test_check_says_what_is_missing(world: World) -> None:
    text = world.file.read_text()
    try:
        world.file.write_text(text.replace("console.html", "nothing.html"))
        told = world.office("check")
        assert (told.returncode, "nothing.html" in told.stderr) == (1, True)
        world.file.write_text(text.replace('role = "operator"', 'role = "operator"\ntls = true'))
        told = world.office("check")
        assert (told.returncode, "`office certificate office" in told.stderr) == (1, True)
    finally:
        world.file.write_text(text)


def test_check_says_what_haproxy_refuses(world: World) -> None:
    text = world.file.read_text()
    try:
        world.file.write_text(re.sub(r'at = "127.0.0.1:\d+"', 'at = "127.0.0.1:99999"', text))
        told = world.office("check")
        assert told.returncode == 1 and "[ALERT]" not in told.stderr
        assert "haproxy doesn't take it: config : parsing" in told.stderr
    finally:
        world.file.write_text(text)


def test_a_start_against_the_clock(world: World) -> None:
    text = world.file.read_text()
    try:
        world.kill(1)
        world.file.write_text(text.replace("[office]", "[office]\nsynchronised = false"))
        assert world.office("check", "--start", "01").returncode == 0
        assert world.office("check", "--start", "3").returncode == 2
        assert world.office("check", "--meant").returncode == 2
    finally:
        world.start(1)
        world.file.write_text(text)


def test_status_is_a_line_a_shard(world: World) -> None:
    told = world.command("status").splitlines()
    assert [line.split()[0] for line in told] == ["shard", "01", "02"]
    assert all(" ms " in line for line in told[1:])


def test_status_of_a_shard_that_is_away(world: World) -> None:
    text = world.file.read_text()
    world.file.write_text(text + "[waits]\nstart = 1\n")
    world.balance()
    world.kill(2)
    try:
        told = world.office("status")
        assert told.returncode == 1
        assert told.stdout.splitlines()[2].split()[2] == "-"
        assert told.stderr == "office: no answer from 02: journalctl --unit ocs@NN\n"
    finally:
        world.start(2)
        world.file.write_text(text)
        world.balance()


def test_a_dry_run_of_clearing_opens_nothing(world: World, script: Caller) -> None:
    told = world.office("clearing", "--write", "--dry-run")
    assert told.returncode == 0 and "nothing is written" in told.stderr
    account = told.stdout.split()[0]
    assert "O2" in script.ask("GET", f"/accounts/{account}").text


def test_status_says_that_a_shard_is_ahead(world: World) -> None:
    world.command("clearing", "--write")
    told = world.command("status").splitlines()[1].split()
    assert int(told[5]) <= 1, (told, time.time())
