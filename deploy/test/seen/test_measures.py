"""`office measures` over a real office: what it shows as things go wrong and right again."""
from __future__ import annotations

import contextlib
import pathlib
import re
import shutil
import socket
import sqlite3
import subprocess
import sys
import threading
import time
import urllib.request
from collections.abc import Callable, Iterator

import pytest
from support.callers import Caller, debit, opened
from support.waiting import until
from support.world import OFFICE, World, done, program

from office.seen.measures import machines
from office.seen.starts import Start
from office.settings import Settings

At = Callable[..., Caller]
Samples = dict[str, float]


def samples(text: str) -> Samples:
    """The samples of an exposition, by name and labels as they are written."""
    rows = (line.rpartition(" ") for line in text.splitlines() if line and line[0] != "#")
    return {name: float(value) for name, _, value in rows}


def once(world: World) -> Samples:
    """What `office measures --once` prints."""
    return samples(world.command("measures", "--once"))


def of(shard: int, name: str) -> str:
    """A shard's sample."""
    return f'ocs_shard_{name}{{shard="{shard:02}"}}'


def test_each_shard_is_measured(world: World, script: Caller) -> None:
    told = once(world)
    for shard in range(1, 5):
        assert told[of(shard, "up")] == 1
        assert 0 < told[of(shard, "probe_seconds")] < 30
        database = world.database(shard)
        log = database.with_name(database.name + "-wal").stat().st_size
        assert told[of(shard, "log_bytes")] == log
        assert told[of(shard, "bytes")] == database.stat().st_size + log
        assert told[of(shard, "room_bytes")] > 1e6
    assert told['ocs_wait_seconds{wait="start"}'] == 2
    assert told["ocs_clock_set"] in (0, 1)


def test_a_shard_that_is_away_or_stands_still(world: World) -> None:
    with world.still(3):
        told = once(world)
    assert [told[of(shard, "up")] for shard in (1, 2, 3, 4)] == [1, 1, 0, 1]
    assert of(3, "probe_seconds") not in told
    world.kill(2)
    try:
        assert once(world)[of(2, "up")] == 0
    finally:
        world.start(2)
    until(lambda: once(world)[of(2, "up")] == 1, "shard 02")


def test_a_probe_goes_before_what_waits(world: World, script: Caller, at: At) -> None:
    account = opened(script, "49161", 1_000_000)
    shard = int(script.ask("GET", f"/accounts/{account}").shard)
    begun = time.monotonic()
    waiting = [
        threading.Thread(target=at("here").ask, args=("POST", "/ccr", debit(account, f"w{each}")))
        for each in range(12)
    ]
    with world.still(shard):
        for each in waiting:
            each.start()
        until(lambda: world.waiting() >= 11, "a queue")
        probe = threading.Thread(target=at("measures").ask, args=("GET", f"/health/{shard:02}"))
        probe.start()
        until(lambda: world.waiting() >= 12, "the probe in the queue")
    for each in (probe, *waiting):
        each.join()
    lines = [line for line in world.lines() if line["shard"] == f"{shard:02}"][-13:]
    assert "/health/" in lines[1]["what"], [line["what"] for line in lines]
    assert time.monotonic() - begun < 60


def test_copies_and_sweeps_are_dated(world: World) -> None:
    (world.place / "01.swept").unlink(missing_ok=True)
    assert of(1, "swept_timestamp_seconds") not in once(world)
    assert of(1, "copied_timestamp_seconds") not in once(world)
    world.command("sweep", "--shard", "01")
    copy_of(world, 1)
    told = once(world)
    for name in ("copied", "swept"):
        assert abs(told[of(1, f"{name}_timestamp_seconds")] - time.time()) < 300
    assert told[of(1, "ahead_seconds")] == 0


def test_the_copies_of_a_night_are_dated(world: World) -> None:
    elsewhere = "ocs_copies_elsewhere_timestamp_seconds"
    night = world.place / "copies/20260102T030405Z"
    assert of(4, "copied_timestamp_seconds") not in once(world)
    night.mkdir(parents=True)
    shutil.move(copy_of(world, 4), night / "04.db")
    (world.place / "copies/.20260103T030405Z.part").mkdir()
    told = once(world)
    assert abs(told[of(4, "copied_timestamp_seconds")] - time.time()) < 300
    assert told[of(4, "ahead_seconds")] == 0
    assert told[elsewhere] == 0
    (world.place / "elsewhere" / night.name).mkdir(parents=True)
    assert once(world)[elsewhere] == 1767323045
    shutil.rmtree(world.place / "copies")


def copy_of(world: World, shard: int) -> pathlib.Path:
    """A copy of a shard, where `office backup` would put it."""
    copy = world.place / f"backup-{shard:02}.db"
    with world.still(shard):
        for end in ("", "-wal"):
            part = world.place / f"{shard:02}.db{end}"
            if part.exists():
                shutil.copy(part, str(copy) + end)
    with contextlib.closing(sqlite3.connect(copy)) as whole:
        whole.execute("PRAGMA wal_checkpoint(TRUNCATE)")
    return copy


def test_a_shard_that_is_ahead_of_the_clock(world: World, script: Caller) -> None:
    copy = copy_of(world, 2)
    with contextlib.closing(sqlite3.connect(copy)) as opened_copy:
        opened_copy.execute("UPDATE meta SET last_moment = ?", [int(time.time()) + 5000])
        opened_copy.commit()
        opened_copy.execute("PRAGMA wal_checkpoint(TRUNCATE)")
    told = once(world)
    assert 4900 < told[of(2, "ahead_seconds")] <= 5000
    copy.unlink()
    assert of(2, "ahead_seconds") not in once(world)
    world.command("clearing", "--write")
    assert [once(world)[of(shard, "ahead_seconds")] for shard in (1, 2, 3, 4)] == [0, 0, 0, 0]


def test_a_shard_whose_clock_was_ahead(world: World, script: Caller) -> None:
    """One command under a clock that is an hour ahead, then the right one."""
    world.command("clearing", "--write")
    account = next(
        each
        for each in (world.place / "clearing").read_text().split()
        if script.ask("GET", f"/accounts/{each}").shard == "03"
    )
    world.kill(3)
    later = int(time.time()) + 3600
    words = ["credit", world.database(3), account, 5, "ahead", "--at", later]
    try:
        done(program(), *words)
    finally:
        world.start(3)
    assert 3500 < once(world)[of(3, "ahead_seconds")] <= 3600


def test_answers_by_caller_and_code(world: World, script: Caller, at: At) -> None:
    name = 'ocs_answers_total{caller="here",code="%s",refusal="",service="%s"}'
    before = once(world)
    account = opened(script, "49162", 1_000_000)
    for each in range(3):
        at("here").ask("POST", "/ccr", debit(account, f"n{each}"))
    at("here").ask("POST", "/ccr", debit("778", "n9"))
    after = once(world)
    for labels, wanted in ((("2001", "2001"), 3), (("5030", ""), 1)):
        assert after[name % labels] - before.get(name % labels, 0) == wanted


def test_ends_of_certificates(world: World) -> None:
    told = once(world)
    ends = {name: value for name, value in told.items() if name.startswith("ocs_certificate_ends")}
    names = {
        f'ocs_certificate_ends_timestamp_seconds{{name="{name}",role="{role}"}}'
        for role, name in (
            ("office", "office.pem"),
            ("authority", "clients.pem"),
            ("revoked", "revoked.pem"),
            ("gateway", "pgw-1"),
            ("gateway", "pgw-old"),
            ("operator", "ada"),
            ("operator", "audit"),
        )
    }
    assert names <= set(ends)
    year = time.time() + 365 * 86400
    assert all(value > year for value in ends.values())
    world.command("certificate", "gateway", "pgw-short", "--days", "3")
    short = 'ocs_certificate_ends_timestamp_seconds{name="pgw-short",role="gateway"}'
    assert abs(once(world)[short] - time.time() - 3 * 86400) < 3600
    world.command("revoke", "pgw-short")
    assert short not in once(world)


@contextlib.contextmanager
def exporter(world: World) -> Iterator[Callable[[], Samples]]:
    """`office measures` as a process; what it shows."""
    port = int(world.file.read_text().partition("[measures]\nport = ")[2].split()[0])
    words = [str(OFFICE), "--file", str(world.file), "measures"]
    process = subprocess.Popen(words, stdin=subprocess.DEVNULL)

    def shown() -> Samples:
        with urllib.request.urlopen(f"http://127.0.0.1:{port}/metrics", timeout=20) as answer:
            return samples(answer.read().decode())

    def is_up() -> bool:
        with contextlib.suppress(OSError):
            return bool(shown())
        return False

    try:
        until(is_up, "the exporter")
        yield shown
    finally:
        process.terminate()
        assert process.wait(20) == 0


def test_who_is_turned_away_is_counted(world: World, at: At) -> None:
    def count(told: Samples, door: str, why: str) -> float:
        return told.get(f'ocs_turned_away_total{{door="{door}",why="{why}"}}', 0)

    with exporter(world) as shown:
        assert count(shown(), "desk", "host") == 0
        for _ in range(3):
            at("desk").ask("GET", "/accounts/1", Host="evil.example")
        at("operators", "pgw-1").ask("GET", "/accounts/1")
        at("operators").ask("GET", "/accounts/1")
        with contextlib.suppress(OSError), socket.create_connection(
            ("127.0.0.1", world.doors["gateways"]), 5
        ) as peer:
            peer.sendall(b"GET / HTTP/1.1\r\n\r\n")
            peer.recv(100)
        until(lambda: count(shown(), "gateways", "connection") == 1, "the handshake")
        told = shown()
        assert count(told, "desk", "host") == 3
        assert count(told, "operators", "role") == 1
        assert count(told, "operators", "unknown") == 1


def test_alarms_name_measures_that_are_there(world: World) -> None:
    """Each measure of the office that an alarm names is one that `measures` may show."""
    rules = (OFFICE.parent.parent / "alarms/ocs.yml").read_text()
    named = set(re.findall(r"\bocs_[a-z_]+", rules))
    told = world.command("measures", "--once") + "# TYPE ocs_turned_away_total counter\n"
    shown = set(re.findall(r"^# TYPE (\S+)", told, re.MULTILINE))
    # An office of two machines has more.
    shown |= {each.name for each in machines(Settings())}
    assert named <= shown, named - shown
    with urllib.request.urlopen(f"http://127.0.0.1:{world.doors['measures']}/metrics") as answer:
        proxies = answer.read().decode()
    for name in set(re.findall(r"\bhaproxy_[a-z_]+", rules)):
        assert f"# TYPE {name} " in proxies, name


@pytest.mark.parametrize(
    ("start", "size", "wanted"),
    [
        (Start("a", 4.0, 1000, 0), 3000, 12.0),
        (Start("a", 4.0, 1000, 0), 500, 4.0),
        (Start("a", 4.0, None, 0), 3000, 4.0),
        (Start("a", None, 1000, 0), 3000, None),
    ],
)
def test_a_start_is_expected_to_take_as_long_as_the_files_have_grown(
    start: Start, size: int, wanted: float | None
) -> None:
    assert start.expected(size) == wanted


def test_an_office_without_haproxy_is_measured_too(tmp_path: pathlib.Path) -> None:
    file = tmp_path / "office.toml"
    file.write_text(
        f'[office]\nshards = 2\ndatabases = "{tmp_path}"\n[haproxy]\nsockets = "{tmp_path}"\n'
        f'[[door]]\nname = "scripts"\nrole = "script"\nat = "{tmp_path}/office.sock"\n'
    )
    told = samples(done(sys.executable, "-B", OFFICE, "--file", file, "measures", "--once"))
    assert [told[of(shard, "up")] for shard in (1, 2)] == [0, 0]
    assert of(1, "bytes") not in told
