"""Which shard an account lives in: as HAProxy has it, and the file of moved accounts."""
from __future__ import annotations

import dataclasses
import pathlib

import pytest

from office import settings, shards
from office.faults import Refused, Unread


def office(folder: pathlib.Path, count: int, more: int = 0) -> settings.Settings:
    """The settings of so many shards, with a file of moved accounts in a folder."""
    told = settings.Settings()
    changed = dataclasses.replace(
        told.office, shards=count, more=more, moved=str(folder / "moved"), databases=str(folder)
    )
    return dataclasses.replace(told, office=changed)


def test_shards_have_ports_units_and_databases(tmp_path: pathlib.Path) -> None:
    told = shards.of(office(tmp_path, 2, 1))
    assert [str(one) for one in told] == ["01", "02", "03"]
    assert [one.port for one in told] == [8101, 8102, 8103]
    assert [one.is_hashed for one in told] == [True, True, False]
    assert (told[1].unit, told[1].database) == ("ocs@02", tmp_path / "02.db")
    assert shards.named(office(tmp_path, 2), "2").number == "02"
    with pytest.raises(Unread):
        shards.named(office(tmp_path, 2), "03")


def test_moved_accounts_go_by_their_file(tmp_path: pathlib.Path) -> None:
    (tmp_path / "moved").write_text("# after the split\n49151 05\n")
    homes = shards.Homes(office(tmp_path, 4, 1))
    assert homes.home("49151").number == "05"
    assert homes.hashed("49151").number == "04"


@pytest.mark.parametrize("line", ["49151", "49151 06", "1 2 3", "7 01\n7 02"])
def test_a_wrong_file_of_moved_accounts_is_refused(tmp_path: pathlib.Path, line: str) -> None:
    (tmp_path / "moved").write_text(line + "\n")
    with pytest.raises(Refused, match="moved: line"):
        shards.Homes(office(tmp_path, 4, 1))
