"""A shard's copy on the machine that doesn't serve it, by programs that stand for DRBD's, LVM's and
mount's: when a copy is taken, and when it is refused. The real ones are in test_failover."""
from __future__ import annotations

import os
import pathlib
import sqlite3

import pytest

from machines.office import TWO, file
from machines.test_watched import HEAD, state
from office import copies, settings, shards
from office.faults import Refused
from office.machines import files, second, watched
from office.settings import Settings

# DRBD says a generation; LVM takes down what it is asked; instead of a mount the files of a folder
# are copied, and meanwhile something may happen.
TOOLS = {
    "drbdadm": 'cat "$PLACE/generation"',
    "lvcreate": 'echo "lvcreate $*" >> "$PLACE/asked"',
    "lvremove": 'echo "lvremove $*" >> "$PLACE/asked"',
    "unshare": """\
. "$PLACE/meanwhile"
eval "file=\\${$#}"
cp "$PLACE/volume/01.db" "$file"
[ ! -e "$PLACE/volume/01.db-wal" ] || cp "$PLACE/volume/01.db-wal" "$file-wal"
""",
}


class Place:
    """The office on m2, whose volume of shard 01 is a folder."""

    def __init__(self, place: pathlib.Path, patch: pytest.MonkeyPatch) -> None:
        self.place, self.asked = place, place / "asked"
        for name, text in TOOLS.items():
            (place / name).write_text(f"#!/bin/sh\n{text}\n")
            (place / name).chmod(0o755)
        patch.setenv("PATH", f"{place}:{os.environ['PATH']}")
        patch.setenv("PLACE", str(place))
        patch.setattr(watched, "DRBD", place / "drbd")
        patch.setattr(second, "NOTICED", 0.1)
        for folder in ("volume", "databases", "locks"):
            (place / folder).mkdir()
        self.settings = self.read()
        machine = self.settings.machines[1]
        patch.setattr(files, "this_machine", lambda _: machine)
        self.says(state(1) + state(2), "a:b:c")
        self.meanwhile("")

    def read(self) -> Settings:
        """The office's file."""
        keys = f'databases = "{self.place}/databases"\nowner = ""\n'
        text = TWO.replace("shards = 2\n", f"shards = 2\n{keys}")
        return settings.read(file(self.place, f'{text}[keeping]\nlocks = "{self.place}/locks"\n'))

    def says(self, states: str, generation: str) -> None:
        """What DRBD says."""
        (self.place / "drbd").write_text(HEAD + states)
        (self.place / "generation").write_text(generation)

    def meanwhile(self, line: str) -> None:
        """What happens while the files are copied."""
        (self.place / "meanwhile").write_text(line)

    def copy(self) -> list[tuple[int]]:
        """The rows of a copy of shard 01."""
        made = self.place / "made.db"
        copies.copy(self.settings, shards.named(self.settings, "01"), made, is_only_read=True)
        return sqlite3.connect(made).execute("SELECT one FROM many").fetchall()


@pytest.fixture(name="place")
def a_place(tmp_path: pathlib.Path, monkeypatch: pytest.MonkeyPatch) -> Place:
    """A shard whose last row is in the log alone."""
    place = Place(tmp_path, monkeypatch)
    database = sqlite3.connect(tmp_path / "01.db", isolation_level=None)
    database.execute("PRAGMA journal_mode = wal")
    database.execute("CREATE TABLE many (one INTEGER)")
    database.execute("PRAGMA wal_checkpoint(TRUNCATE)")
    database.execute("INSERT INTO many VALUES (7)")
    for name in ("01.db", "01.db-wal"):
        (tmp_path / "volume" / name).write_bytes((tmp_path / name).read_bytes())
    database.close()
    return place


def test_a_copy_has_what_the_volume_and_its_log_have(place: Place) -> None:
    assert place.copy() == [(7,)]
    room = "--snapshot --name 01-copy --extents 10%ORIGIN /dev/office/01"
    assert place.asked.read_text() == f"lvcreate --yes --quiet {room}\n"


@pytest.mark.parametrize(
    "states",
    [
        "",
        state(1, "WFConnection", "DUnknown"),
        state(1, "SyncTarget", "UpToDate"),
        state(1, disks="Inconsistent"),
        state(1, oos=8),
    ],
)
def test_copies_that_are_out_of_step_are_refused(place: Place, states: str) -> None:
    place.says(states, "a:b:c")
    with pytest.raises(Refused, match="isn't in step with the other machine's"):
        place.copy()
    assert not place.asked.exists()


@pytest.mark.parametrize("what", ['echo d > "$PLACE/generation"', 'echo > "$PLACE/drbd"'])
def test_copies_that_fall_out_of_step_meanwhile_are_refused(place: Place, what: str) -> None:
    place.meanwhile(what)
    with pytest.raises(Refused, match="step"):
        place.copy()
    assert not (place.place / "made.db").exists()


def test_a_volume_that_cannot_be_read_is_refused(place: Place) -> None:
    place.meanwhile("echo no file system >&2; exit 32")
    with pytest.raises(Refused, match="unshare: no file system"):
        place.copy()


def test_a_copy_that_is_not_only_read_is_of_the_machine_that_serves(place: Place) -> None:
    shard = shards.named(place.settings, "01")
    with pytest.raises(Refused, match="isn't there"):
        copies.copy(place.settings, shard, place.place / "made.db")
