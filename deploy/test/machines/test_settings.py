"""What the tables of machines may say: each fault is named by its place."""
from __future__ import annotations

import pathlib

import pytest

from machines.office import ONE, TWO, file, office
from office import settings
from office.faults import Unread
from office.machines import resources

FOURTH = """
[[machine]]
name = "m4"
own = "10.51.0.14"
office = "10.50.0.14"
only = "vote"
"""
M3 = TWO[TWO.index('[[machine]]\nname = "m3"') :]
FAULTS = [
    (M3, "", "two votes are no majority of two"),
    (M3, M3 + FOURTH, "4 votes can be halved"),
    ('only = "vote"', 'first = []\nfence = "fence_ipmilan"', "3 have disks"),
    ('only = "vote"', 'only = "votes"', "machine 3: only: 'votes' isn't"),
    ('only = "vote"', 'only = "vote"\nfirst = ["01"]', "machine 'm3': first: it has a vote only"),
    ('only = "vote"', 'only = "vote"\nfence = "fence_apc"', "machine 'm3': fence: it has a vote"),
    ('name = "m2"', 'name = "m1"', "machine: 'm1' is there twice"),
    ('name = "m2"', 'name = "m2.example"', "machine 2: name:"),
    ('own = "10.51.0.12"', 'own = "10.51.0.11"', "machine 'm2': own: 10.51.0.11 is machine 'm1'"),
    ('own = "10.51.0.12"', 'own = "10.51.0.102"', "shard 02: 10.51.0.102 is machine 'm2'"),
    ('own = "10.51.0.12"', 'own = "10.50.0.12"', "machine 'm2': own: 10.50.0.12 isn't on 10.51"),
    ('own = "10.51.0.12"', 'own = "10.51.0.312"', "'10.51.0.312'"),
    ('office = "10.50.0.12"', 'office = "10.50.0.100"', "cluster: address: 10.50.0.100 is machine"),
    ('fence = "fence_ipmilan"', "", "machine 'm1': fence is missing: without it two machines may"),
    ('fence = "fence_ipmilan"', 'fence = "/bin/fence"', "machine 1: fence:"),
    ('"username=office"', '"username"', "machine 1: fence-options 2:"),
    ('"username=office"', '"ip=10.52.0.9"', "machine 'm1': fence-options: ip is there twice"),
    ('first = ["01"]', "", "machine: first: shard 01 is there 0 times"),
    ('first = ["02"]', 'first = ["01", "02"]', "machine: first: shard 01 is there 2 times"),
    ('first = ["02"]', 'first = ["02", "03"]', "machine: first: there is no shard 03"),
    ('first = ["02"]', 'first = ["02"]\ndisk = "/dev/vg/a"', "machine 'm2': disk: '/dev/vg/a' has"),
    (
        'first = ["02"]',
        'first = ["02"]\ndisks = "/dev/a"',
        "machine 2: disks: there is no such key",
    ),
    ('address = "10.50.0.100/24"', "", "cluster: address is missing"),
    ('address = "10.50.0.100/24"', 'address = "10.50.0.100/33"', "cluster: address:"),
    ('address = "10.50.0.100/24"', 'address = "10.51.0.200/24"', "are on one network, not on two"),
    ('shards-after = "10.51.0.100/24"', "", "cluster: shards-after is missing"),
    ("[cluster]", '[cluster]\nfiles = "btrfs"', "cluster: files: 'btrfs' isn't"),
    ("[cluster]", "[cluster]\nlook = 1", "cluster: look: 1 isn't from 2 to 300"),
    ("[cluster]", "[cluster]\nsnapshot = 0", "cluster: snapshot: 0 isn't from 1 to 100"),
    ("[cluster]", "[cluster]\ntoken = 10", "cluster: token: 10 isn't from 1000 to 60000"),
    (
        "[office]",
        '[office]\nunit = "shard-{shard}"',
        "office: unit: with machines it is ocs@{shard}",
    ),
    ("[office]", "[office]\nfirst-port = 9150", "office: first-port: 9150 isn't a multiple of 100"),
]


@pytest.mark.parametrize("old, new, told", FAULTS)
def test_a_fault_is_named_by_its_place(
    tmp_path: pathlib.Path, old: str, new: str, told: str
) -> None:
    with pytest.raises(Unread) as fault:
        settings.read(file(tmp_path, TWO, old, new))
    assert told in str(fault.value)


def test_a_cluster_without_machines_is_a_fault(tmp_path: pathlib.Path) -> None:
    ended = office(file(tmp_path, ONE + "[cluster]\ntoken = 6000\n"), "machines")
    assert ended.returncode == 2 and "there is no [[machine]]" in ended.stderr


def test_dry_run_belongs_to_write(tmp_path: pathlib.Path) -> None:
    for words in (["--dry-run"], ["check", "--dry-run"], ["make"]):
        assert office(file(tmp_path), "machines", *words).returncode == 2


def test_pacemaker_looks_as_often_as_the_file_says(tmp_path: pathlib.Path) -> None:
    path = file(tmp_path, TWO, "[cluster]", "[cluster]\nlook = 40")
    told = resources.text(settings.read(path))
    # HAProxy, the office's address; of each shard its files, its address, its unit.
    assert told.count('interval="40"') == 8 and 'interval="10"' not in told
