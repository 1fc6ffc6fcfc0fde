"""The page of a damaged log, DAMAGE.md: its lines word for word, over damaged logs of an office."""
from __future__ import annotations

import dataclasses
import os
import pathlib
import re
import shutil
import sqlite3
import subprocess

import pytest
from support.world import BOOK, DEPLOY, program, ran

PAGE = (DEPLOY / "DAMAGE.md").read_text()
BLOCK = re.compile(r"^( *)```\n(.*?)^\1```$", re.MULTILINE | re.DOTALL)
CREDITS = 4
AT = ("--at", "1767604000")
STATEMENT = ("statement", "FILE", "49151", "202601")
FAULT = "ocs: file fault\n"
HEADER, FRAME = 32, 24


@dataclasses.dataclass(frozen=True)
class Office:
    """A folder whose files are named as in the page, and the log before its damage."""

    place: pathlib.Path
    log: bytes

    def ocs(self, *words: str) -> subprocess.CompletedProcess[str]:
        """A word of the program, in the folder."""
        return ran(program(), *words, cwd=self.place)

    def shell(self, lines: str) -> subprocess.CompletedProcess[str]:
        """Lines of the page, by a shell that finds the program as `ocs`."""
        path = f"{self.place / 'bin'}:{os.environ['PATH']}"
        return ran("bash", "-c", lines, cwd=self.place, env={**os.environ, "PATH": path})

    def files(self) -> list[bytes]:
        """The bytes of both files."""
        return [(self.place / name).read_bytes() for name in ("FILE", "FILE-wal")]

    def turn(self, at: int) -> None:
        """Turns a bit of the log."""
        log = bytearray(self.log)
        log[at] ^= 4
        (self.place / "FILE-wal").write_bytes(log)

    def frame(self, share: float) -> int:
        """Where the content of a frame begins that is so far in what was committed."""
        size = FRAME + int.from_bytes(self.log[8:12], "big")
        places = range(HEADER, len(self.log) - size + 1, size)
        written = [at for at in places if self.log[at + 8 : at + 16] == self.log[16:24]]
        return written[int(share * len(written))] + FRAME


def block(begins: str) -> str:
    """The lines of the page's block that begins so."""
    found = [lines for _, lines in BLOCK.findall(PAGE) if lines.strip().startswith(begins)]
    assert len(found) == 1, begins
    return str(found[0])


def inline(begins: str) -> str:
    """The words that the page has between backticks and that begin so."""
    (found,) = set(re.findall(rf"`({re.escape(begins)}[^`\n]*)`", PAGE))
    return str(found)


@pytest.fixture
def office(tmp_path: pathlib.Path) -> Office:
    """An office with some credits, all of them in its log."""
    (tmp_path / "bin").mkdir()
    (tmp_path / "bin/ocs").symlink_to(program())
    words = [("init", "FILE", str(BOOK)), ("open", "FILE", "49151", *AT)]
    words += [("credit", "FILE", "49151", "1000", f"c{at}", *AT) for at in range(CREDITS)]
    for one in words:
        assert ran(program(), *one, cwd=tmp_path).returncode == 0
    return Office(tmp_path, (tmp_path / "FILE-wal").read_bytes())


def found(statement: str) -> int:
    """How many credits a statement has."""
    return len(re.findall(r"^ +\d+ +1000 +1000 ", statement, re.MULTILINE))


def test_a_damaged_frame(office: Office) -> None:
    assert found(office.ocs(*STATEMENT).stdout) == CREDITS
    office.turn(office.frame(0.8))
    damaged = office.files()
    told = office.ocs(*STATEMENT)
    assert (told.returncode, told.stderr, office.files()) == (1, FAULT, damaged)
    seen = office.shell(block("fuser"))
    assert seen.stdout.count("FILE") == 2 and "FILE:" not in seen.stderr
    assert office.shell(block("mkdir kept")).returncode == 0
    assert [(office.place / "kept" / name).read_bytes() for name in ("FILE", "FILE-wal")] == damaged
    assert office.shell(inline("sha256sum -c")).returncode == 0
    told = office.shell(block('sqlite3 -readonly FILE "SELECT'))
    account, count, credited = told.stdout.split("\n", 1)[0].split("|")
    assert (account, int(credited)) == ("49151", 1000 * int(count)) and 0 < int(count) < CREDITS
    assert told.stdout.split("\n")[1:] == ["ok", "FILE: OK", "FILE-wal: OK", ""]
    going_on = office.shell(block('sqlite3 -readonly FILE ".backup'))
    assert (going_on.returncode, found(going_on.stdout)) == (0, int(count))
    assert office.files() == damaged


def test_to_serve_from_what_was_found(office: Office) -> None:
    office.turn(office.frame(0.8))
    for begins in ("mkdir kept", 'sqlite3 -readonly FILE ".backup'):
        assert office.shell(block(begins)).returncode == 0
    assert "move `FILE` and `FILE-wal` into `kept`" in PAGE
    for name in ("FILE", "FILE-wal"):
        (office.place / name).rename(office.place / "kept" / name)
    for name in ("found", "found-wal"):
        if (office.place / name).exists():
            (office.place / name).rename(office.place / name.replace("found", "FILE"))
    before = found(office.ocs(*STATEMENT).stdout)
    for at in range(CREDITS):
        sent = office.ocs("credit", "FILE", "49151", "1000", f"c{at}", *AT)
        assert sent.returncode == 0
    assert 0 < before < CREDITS and found(office.ocs(*STATEMENT).stdout) == CREDITS


@pytest.mark.parametrize("at", [20, HEADER + FRAME + 100])
def test_no_such_table(office: Office, at: int) -> None:
    office.turn(at)
    damaged = office.files()
    assert office.ocs(*STATEMENT).stderr == FAULT
    told = office.shell(block('sqlite3 -readonly FILE "SELECT'))
    assert "no such table" in told.stderr and office.files() == damaged


def test_a_bit_that_was_misread_once(office: Office) -> None:
    office.turn(office.frame(0.5))
    assert office.ocs(*STATEMENT).stderr == FAULT
    (office.place / "FILE-wal").write_bytes(office.log)
    assert found(office.ocs(*STATEMENT).stdout) == CREDITS


def test_a_log_that_was_removed(office: Office) -> None:
    assert office.shell("sqlite3 FILE 'PRAGMA wal_checkpoint(TRUNCATE)'").returncode == 0
    before = found(office.ocs(*STATEMENT).stdout)
    assert office.ocs("credit", "FILE", "49151", "1000", "later", *AT).returncode == 0
    assert found(office.ocs(*STATEMENT).stdout) == before + 1
    (office.place / "FILE-wal").unlink()
    assert found(office.ocs(*STATEMENT).stdout) == before == CREDITS


def test_a_log_that_sqlite_left(office: Office) -> None:
    """SQLite writes a row of its own and is killed: what it leaves is copied while it is open."""
    left = office.place / "left"
    left.mkdir()
    opened = sqlite3.connect(office.place / "FILE", isolation_level=None)
    opened.execute("PRAGMA wal_checkpoint(TRUNCATE)")
    opened.execute("UPDATE meta SET last_moment = last_moment + 1")
    for name in ("FILE", "FILE-wal"):
        shutil.copy(office.place / name, left)
    opened.close()
    other = Office(left, (left / "FILE-wal").read_bytes())
    assert other.ocs(*STATEMENT).stderr == FAULT
    assert office.shell("cd left && " + inline('sqlite3 FILE "PRAGMA')).returncode == 0
    assert found(other.ocs(*STATEMENT).stdout) == CREDITS
