"""What the measures say of copies and votes, by what DRBD and Corosync print."""
from __future__ import annotations

import pathlib

import pytest

from machines.office import ONE, TWO, file
from office import settings
from office.machines import watched
from office.seen.measures import machines

HEAD = "version: 8.4.11 (api:1/proto:86-101)\nsrcversion: 2E8C2F0A8B2E5F0A0A0A0A0\n\n"
STATE = """\
 {minor}: cs:{connection} ro:Primary/Secondary ds:{disks} C r-----
    ns:4 nr:0 dw:4 dr:2 al:1 bm:0 lo:0 pe:0 ua:0 ap:0 ep:1 wo:f oos:{oos}
"""
QUORUM = """\
Quorum information
------------------
Quorum provider:  corosync_votequorum
Nodes:            {there}
Quorate:          {quorate}

Votequorum information
----------------------
Expected votes:   3
Highest expected: 3
Total votes:      {there}
Quorum:           2
"""


def state(minor: int, connection: str = "Connected", disks: str = "UpToDate", oos: int = 0) -> str:
    """A resource as /proc/drbd has it; `disks` is the other's disk."""
    told = f"UpToDate/{disks}"
    return STATE.format(minor=minor, connection=connection, disks=told, oos=oos)


@pytest.mark.parametrize(
    "text, wanted",
    [
        (state(1) + "\n" + state(2), (1, 1)),
        (state(1, "WFConnection", "Outdated", 4096) + state(2), (0, 1)),
        (state(1) + state(2, "SyncSource", "Inconsistent", 8), (1, 0)),
        (state(1, disks="Diskless") + state(2, "StandAlone", "DUnknown"), (0, 0)),
        (state(1, oos=4) + " 2: cs:Unconfigured\n", (0, 0)),
        (state(1) + state(12), (1, 0)),
        ("", (0, 0)),
    ],
)
def test_a_shard_is_mirrored_where_both_disks_have_all(
    tmp_path: pathlib.Path, monkeypatch: pytest.MonkeyPatch, text: str, wanted: tuple[int, int]
) -> None:
    monkeypatch.setattr(watched, "DRBD", tmp_path / "drbd")
    (tmp_path / "drbd").write_text(HEAD + text)
    samples = shown(tmp_path)
    assert (samples["ocs_shard_mirrored01"], samples["ocs_shard_mirrored02"]) == wanted


@pytest.mark.parametrize("there, quorate", [(3, "Yes"), (2, "Yes"), (1, "No")])
def test_votes_are_those_of_corosync(
    tmp_path: pathlib.Path, monkeypatch: pytest.MonkeyPatch, there: int, quorate: str
) -> None:
    (tmp_path / "told").write_text(QUORUM.format(there=there, quorate=quorate))
    monkeypatch.setattr(watched, "QUORUM", ("cat", str(tmp_path / "told")))
    samples = shown(tmp_path)
    assert (samples["ocs_votes"], samples["ocs_votes_expected"]) == (there, 3)
    assert samples["ocs_votes_majority"] == (quorate == "Yes")


def test_without_engines_nothing_is_in_step(
    tmp_path: pathlib.Path, monkeypatch: pytest.MonkeyPatch
) -> None:
    monkeypatch.setattr(watched, "QUORUM", (str(tmp_path / "nothing"),))
    monkeypatch.setattr(watched, "DRBD", tmp_path / "nothing")
    samples = shown(tmp_path)
    assert (samples["ocs_votes"], samples["ocs_votes_majority"]) == (0, 0)
    assert samples["ocs_shard_mirrored01"] == 0
    assert not settings.read(file(tmp_path, ONE)).machines


def shown(place: pathlib.Path) -> dict[str, float]:
    """The samples, by name and shard."""
    told = machines(settings.read(file(place, TWO)))
    return {
        each.name + each.labels.get("shard", ""): each.value for one in told for each in one.samples
    }
