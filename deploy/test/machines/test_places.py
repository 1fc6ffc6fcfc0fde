"""Where Pacemaker puts the shards when machines, links and votes go, by its own simulation."""
from __future__ import annotations

import pathlib

import pytest

from machines.simulated import CURRENT, OLD, Simulated

GOLDEN = pathlib.Path(__file__).resolve().parent / "golden/two/cluster.xml"
STANDBY = (
    '<node id="m1" uname="m1"/>',
    '<node id="m1" uname="m1"><instance_attributes id="m1-own">'
    '<nvpair id="m1-standby" name="standby" value="on"/></instance_attributes></node>',
)
PARTS = ("files", "address", "ocs")


@pytest.fixture(name="cluster")
def made(tmp_path: pathlib.Path) -> Simulated:
    return Simulated(tmp_path, GOLDEN.read_text()).up()


def places(cluster: Simulated) -> tuple[str, str, str]:
    """The machines of shard 01, of shard 02 and of the office's address; all parts of a shard are
    on the machine that is promoted for its disk."""
    for shard in ("01", "02"):
        for part in PARTS:
            assert cluster.where(f"{part}{shard}") == cluster.promoted(shard)
    return cluster.promoted("01"), cluster.promoted("02"), cluster.where("office")


def test_each_machine_has_its_own_shards(cluster: Simulated) -> None:
    assert places(cluster)[:2] == ("m1", "m2")
    assert cluster.where("office") in ("m1", "m2")
    assert (cluster.where("fence-m1"), cluster.where("fence-m2")) == ("m2", "m1")


@pytest.mark.parametrize("lost, other", [("m1", "m2"), ("m2", "m1")])
def test_a_lost_machine_is_fenced_before_the_other_serves(
    cluster: Simulated, lost: str, other: str
) -> None:
    cluster.after("--node-fail", lost)
    assert cluster.fenced() == [lost]
    assert places(cluster) == (other, other, other)
    shard = "01" if lost == "m1" else "02"
    fencing = f"stonith-{lost}-off {lost}"
    for key in (f"drbd{shard}_promote_0", *(f"{part}{shard}_start_0" for part in PARTS)):
        # Where the fencing fails none of these steps is taken.
        assert fencing in cluster.before(key, other)
    assert f"drbd{shard}_promote_0 {other}" in cluster.before(f"files{shard}_start_0", other)
    assert f"files{shard}_start_0 {other}" in cluster.before(f"ocs{shard}_start_0", other)


def test_a_vote_that_is_lost_moves_nothing(cluster: Simulated) -> None:
    before = places(cluster)
    cluster.after("--node-down", "m3")
    assert places(cluster) == before and not cluster.fenced()


@pytest.mark.parametrize("left", ["m1", "m2", "m3"])
def test_without_a_majority_nothing_is_served(cluster: Simulated, left: str) -> None:
    gone = [name for name in ("m1", "m2", "m3") if name != left]
    cluster.after(*(word for name in gone for word in ("--node-fail", name)), quorum=False)
    assert not cluster.fenced()
    assert all(cluster.where(f"ocs{shard}") != left for shard in ("01", "02"))
    assert all(cluster.promoted(shard) != left for shard in ("01", "02"))
    assert cluster.where("office") != left


def test_an_old_copy_is_not_promoted(cluster: Simulated) -> None:
    cluster.marks("01", "m1")
    assert places(cluster.after())[:2] == ("m1", "m2")
    cluster.after("--node-fail", "m1")
    assert cluster.fenced() == ["m1"]
    assert (cluster.promoted("01"), cluster.where("ocs01")) == ("", "")
    assert (cluster.promoted("02"), cluster.where("ocs02")) == ("m2", "m2")


def test_a_machine_that_comes_back_gets_nothing_by_itself(cluster: Simulated) -> None:
    cluster.after("--node-fail", "m1").says({"m2": CURRENT})
    cluster.after("--node-up", "m1").says({"m1": OLD, "m2": CURRENT})
    assert places(cluster.after()) == ("m2", "m2", "m2")
    cluster.says({"m1": CURRENT, "m2": CURRENT})
    assert places(cluster.after()) == ("m2", "m2", "m2")


def test_a_process_that_died_is_started_where_it_is(cluster: Simulated) -> None:
    cluster.after("--op-inject", "ocs01_monitor_10000@m1=7")
    assert places(cluster)[:2] == ("m1", "m2") and not cluster.fenced()
    assert "ocs01           start on m1" in cluster.told


def test_a_machine_that_is_asked_to_go_gives_all_away(cluster: Simulated) -> None:
    text = cluster.state.read_text()
    assert STANDBY[0] in text
    cluster.state.write_text(text.replace(*STANDBY))
    assert places(cluster.after()) == ("m2", "m2", "m2") and not cluster.fenced()
    assert "ocs01_stop_0 m1" in cluster.before("drbd01_promote_0", "m2")
