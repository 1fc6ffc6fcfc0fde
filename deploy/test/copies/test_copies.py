"""Copies of a shard that is served under load: each is whole and has what was answered before."""
from __future__ import annotations

import pathlib
import random
import sqlite3
import subprocess
import sys
import time

import pytest
from copies.conftest import ACCOUNT, FILE, Asked, Tools, debits_of
from support.waiting import until
from support.world import OFFICE, World, done, program, ran

# The header of a log is written anew all the time.
WRITER = """
import itertools, sys, time
for at in itertools.count():
    with open(sys.argv[1], "r+b") as log:
        log.write(at.to_bytes(32, "big"))
    time.sleep(0.005)
"""
COUNTS = [10, pytest.param(100, marks=pytest.mark.slow)]


@pytest.mark.parametrize("count", COUNTS)
def test_copies_have_each_command_that_was_answered_before(
    world: World, asked: Asked, tools: Tools, tmp_path: pathlib.Path, count: int
) -> None:
    chance, file = random.Random(count), tmp_path / "copy.db"
    for at in range(count):
        tools.put(chance.choice((0, 0.02, 0.3)), world.shards[1].pid)
        before = asked.answered
        told = world.office("backup", "1", file, env=tools.environment())
        assert told.returncode == 0, told.stderr
        after = asked.sent
        found = debits_of(file)
        assert found == list(range(1, len(found) + 1))
        assert before <= len(found) <= after
        if at % 10 == 0:
            month = time.strftime("%Y%m", time.gmtime())
            assert done(program(), "statement", file, ACCOUNT, month)
    assert not asked.fault and asked.answered > 0


def test_a_copy_in_which_a_checkpoint_ends_is_taken_again(
    world: World, asked: Asked, tools: Tools, tmp_path: pathlib.Path
) -> None:
    file, wrong = tmp_path / "copy.db", tmp_path / "wrong.db"
    tools.put(0, world.shards[1].pid)
    tools.gate.touch()
    word = started(world, tools, file)
    until(lambda: tools.copied() == 1, "the word at the gate")
    before, header = asked.answered, asked.header()
    done("cp", world.database(1), wrong)
    until(lambda: asked.header() != header, "a checkpoint", 300)
    # The database of before it with the log of after it lacks commands.
    done("cp", f"{world.database(1)}-wal", f"{wrong}-wal")
    assert is_lacking(wrong, before)
    tools.gate.unlink()
    told = word.communicate(timeout=60)
    assert (word.returncode, told[0]) == (0, f"{file}\n"), told
    assert tools.copied() >= 4 and not told[1]
    assert before <= len(debits_of(file)) <= asked.sent


def test_a_copy_that_is_killed_leaves_the_one_before(
    world: World, asked: Asked, tools: Tools, tmp_path: pathlib.Path
) -> None:
    assert not asked.fault
    place = tmp_path / "place"
    place.mkdir()
    file = place / "copy.db"
    tools.put(0, world.shards[1].pid)
    assert world.office("backup", "1", file, env=tools.environment()).returncode == 0
    first = file.read_bytes()
    killed = 0
    for at in range(8):
        tools.put(0.3, world.shards[1].pid)
        word = started(world, tools, file)
        time.sleep(0.15 * (at + 1))
        word.kill()
        word.communicate()
        killed += word.returncode < 0
        if file.read_bytes() != first:
            first = file.read_bytes()
            assert debits_of(file)
    assert killed > 2
    tools.put(0, world.shards[1].pid)
    until(lambda: is_quiet(tools), "the end of cp")
    assert world.office("backup", "1", file, env=tools.environment()).returncode == 0
    assert [path.name for path in place.iterdir()] == ["copy.db"]


def test_two_copies_at_once_leave_each_other_alone(
    world: World, asked: Asked, tools: Tools, tmp_path: pathlib.Path
) -> None:
    assert not asked.fault
    tools.put(0.3, world.shards[1].pid)
    words = [started(world, tools, tmp_path / "copy.db") for _ in range(2)]
    assert [word.communicate(timeout=120) and word.returncode for word in words] == [0, 0]
    assert debits_of(tmp_path / "copy.db")
    assert sorted(path.name for path in tmp_path.glob(".copy*")) == []


def test_a_shard_without_a_moment_between_checkpoints_stands_still(
    still: pathlib.Path, tools: Tools, tmp_path: pathlib.Path
) -> None:
    writer = subprocess.Popen([sys.executable, "-c", WRITER, f"{still}-wal"])
    try:
        tools.put(0.05, writer.pid)
        told = backup(still, tools, tmp_path / "copy.db")
        assert told.returncode == 0, told.stderr
        assert "4 times a checkpoint ended" in told.stderr and tools.copied() == 10
        assert (tmp_path / "copy.db").is_file()
        state = pathlib.Path(f"/proc/{writer.pid}/stat").read_text().rpartition(")")[2].split()[0]
        assert state in "RSD"
        tools.put(0.05, 0)
        before = (tmp_path / "copy.db").read_bytes()
        told = backup(still, tools, tmp_path / "copy.db")
        assert told.returncode == 1 and "isn't up" in told.stderr
        assert (tmp_path / "copy.db").read_bytes() == before
    finally:
        writer.kill()
        writer.wait()


def test_a_log_whose_reset_was_cut_short_is_an_empty_one(
    still: pathlib.Path, tools: Tools, tmp_path: pathlib.Path
) -> None:
    whole = tmp_path / "whole.db"
    assert backup(still, tools, whole).returncode == 0
    log = still.with_name("01.db-wal")
    left = bytes([0]) + log.read_bytes()[1:]
    still.write_bytes(whole.read_bytes())
    log.write_bytes(left)
    assert backup(still, tools, tmp_path / "copy.db").returncode == 0
    rows = [done("sqlite3", file, ".dump") for file in (whole, tmp_path / "copy.db")]
    assert rows[0] == rows[1] and "meta" in rows[0]
    log.unlink()
    assert backup(still, tools, tmp_path / "none.db").returncode == 0
    assert done("sqlite3", tmp_path / "none.db", ".dump") == rows[0]


@pytest.fixture(name="still")
def not_served(tmp_path: pathlib.Path) -> pathlib.Path:
    """A shard that nobody serves."""
    place = tmp_path / "still"
    place.mkdir()
    world = World(place, FILE, {})
    done(program(), "init", world.database(1), OFFICE.parents[2] / "examples/book.toml")
    return world.database(1)


def backup(
    database: pathlib.Path, tools: Tools, file: pathlib.Path
) -> subprocess.CompletedProcess[str]:
    """The word over a shard that nobody serves."""
    words = ("--file", database.with_name("office.toml"), "backup", "1", file)
    return ran(OFFICE, *words, env=tools.environment())


def started(world: World, tools: Tools, file: pathlib.Path) -> subprocess.Popen[str]:
    """The word, which goes on meanwhile."""
    words = [str(OFFICE), "--file", str(world.file), "backup", "1", str(file)]
    return subprocess.Popen(
        words,
        env=tools.environment(),
        stdout=subprocess.PIPE,
        stderr=subprocess.PIPE,
        text=True,
    )


def is_lacking(copy: pathlib.Path, count: int) -> bool:
    """Whether a copy isn't whole, or has fewer debits."""
    try:
        return len(debits_of(copy)) < count
    except (AssertionError, sqlite3.Error):
        return True


def is_quiet(tools: Tools) -> bool:
    """Whether no `cp` of a killed word goes on."""
    return not ran("pgrep", "-f", f"{tools.place}/cp").stdout
