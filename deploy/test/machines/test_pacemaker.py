"""Pacemaker's own words, as MACHINES.md has them, over a configuration in a file."""
from __future__ import annotations

import pathlib

import pytest
from support.world import done, ran

from machines.office import TWO, file
from machines.simulated import Simulated
from office import alone, settings, shards, units
from office.faults import Refused
from office.machines import pacemaker

GOLDEN = pathlib.Path(__file__).resolve().parent / "golden/two/cluster.xml"
TAKEN = "cibadmin --modify --allow-create --scope configuration --xml-file"


@pytest.fixture(name="cluster")
def made(tmp_path: pathlib.Path, monkeypatch: pytest.MonkeyPatch) -> Simulated:
    one = Simulated(tmp_path, GOLDEN.read_text()).up()
    monkeypatch.setenv("CIB_file", str(one.state))
    return one


def test_a_configuration_that_is_taken_again_leaves_the_mark(
    cluster: Simulated, tmp_path: pathlib.Path
) -> None:
    cluster.marks("01", "m1")
    changed = tmp_path / "changed.xml"
    changed.write_text(GOLDEN.read_text().replace('value="200"', 'value="201"'))
    done(*TAKEN.split(), changed)
    text = cluster.state.read_text()
    assert 'value="201"' in text and 'id="drbd-fence-by-handler-ocs-01-disk01"' in text
    done("crm_verify", "--xml-file", cluster.state)
    done(*TAKEN.replace("--modify --allow-create", "--replace").split(), GOLDEN)
    assert "drbd-fence-by-handler" not in cluster.state.read_text()


def test_an_empty_cluster_takes_it(tmp_path: pathlib.Path, monkeypatch: pytest.MonkeyPatch) -> None:
    state = tmp_path / "empty.xml"
    state.write_text(done("cibadmin", "--empty"))
    monkeypatch.setenv("CIB_file", str(state))
    done(*TAKEN.split(), GOLDEN)
    done("crm_verify", "--xml-file", state)
    assert state.read_text().count("<rsc_location ") == GOLDEN.read_text().count("<rsc_location ")


def test_a_machine_is_asked_to_go_and_comes_back(cluster: Simulated) -> None:
    done(*"crm_standby -N m1 -v on".split())
    cluster.after()
    assert (cluster.promoted("01"), cluster.where("ocs01")) == ("m2", "m2")
    done(*"crm_standby -N m1 -D".split())
    assert "standby" not in cluster.state.read_text()
    done(*"crm_resource --move -r shard01 -N m1".split())
    assert 'id="cli-prefer-shard01"' in cluster.state.read_text()
    done(*"crm_resource --clear -r shard01".split())
    assert "cli-" not in cluster.state.read_text()


def test_a_word_that_stops_a_shard_waits_until_pacemaker_leaves_it(
    cluster: Simulated, tmp_path: pathlib.Path, monkeypatch: pytest.MonkeyPatch
) -> None:
    assert cluster.where("ocs01") == "m1"
    told = settings.read(file(tmp_path, TWO))
    shard = shards.named(told, "01")
    monkeypatch.setattr(units, "is_active", lambda shard: True)
    with pytest.raises(Refused) as fault:
        with alone.alone(told, shard):
            pass
    assert pacemaker.leave(shard) in str(fault.value) and pacemaker.take(shard) in str(fault.value)
    done(*pacemaker.leave(shard).split())
    assert pacemaker.leaves(shard)
    cluster.after("--op-inject", "ocs01_monitor_10000@m1=7")
    assert "ocs01" not in cluster.told.partition("Executing")[2].partition("Revised")[0]
    done(*pacemaker.take(shard).split())
    assert not pacemaker.leaves(shard)


def test_without_an_answer_pacemaker_does_not_leave_it(
    tmp_path: pathlib.Path, monkeypatch: pytest.MonkeyPatch
) -> None:
    monkeypatch.setenv("CIB_file", str(tmp_path / "nothing.xml"))
    assert not pacemaker.leaves(shards.named(settings.read(file(tmp_path, TWO)), "02"))
    assert ran("crm_resource", "--version").returncode == 0
