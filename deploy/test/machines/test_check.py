"""`office machines check`: it names each thing that a machine lacks, and nothing on one that has
all."""
from __future__ import annotations

import pathlib

import pytest

from machines.office import TWO, file, on

# A machine that has all: its files, volumes, mount points, the key, and its units as they must be.
WHOLE = """\
hide() {{
    path=$(realpath $(command -v $1)); place=${{path%/*}}
    mkdir /mnt/upper /mnt/work
    mount -t overlay overlay -o lowerdir=$place,upperdir=/mnt/upper,workdir=/mnt/work $place
    rm $path
}}
$office --file {file} machines write > /mnt/told
for s in 01 02; do mknod /dev/shm/$s b 7 0; mkdir /var/lib/ocs/$s; done
head -c 256 /dev/zero > /etc/corosync/authkey; chmod 400 /etc/corosync/authkey
cp /dev/null /mnt/fstab; mount --bind /mnt/fstab /etc/fstab
cp {unit} /etc/systemd/system/
systemctl --quiet enable corosync pacemaker 2> /dev/null
systemctl --quiet disable drbd haproxy 2> /dev/null
"""
CHECK = "$office --file {file} machines check; echo status $?"
LACKS = [
    ("rm /etc/drbd.d/ocs-02.res", "/etc/drbd.d/ocs-02.res isn't there: office machines write"),
    ("echo >> /etc/ocs/cluster.xml", "/etc/ocs/cluster.xml is another: office machines write"),
    (
        "cp /etc/drbd.d/ocs-02.res /etc/drbd.d/ocs-03.res",
        "/etc/drbd.d/ocs-03.res is of a shard that the file hasn't",
    ),
    ("rm /etc/corosync/authkey", "/etc/corosync/authkey isn't there: corosync-keygen"),
    ("chmod 444 /etc/corosync/authkey", "/etc/corosync/authkey may be read by others"),
    ("ip addr del 10.51.0.11/24 dev eth1", "this machine hasn't the address 10.51.0.11 (own)"),
    ("ip addr del 10.50.0.11/24 dev eth0", "this machine hasn't the address 10.50.0.11 (office)"),
    ("systemctl -q disable corosync", "the unit corosync isn't enabled: systemctl enable"),
    ("systemctl -q disable pacemaker", "the unit pacemaker isn't enabled: systemctl enable"),
    ("systemctl -q enable drbd", "the unit drbd is enabled, and Pacemaker starts it"),
    ("systemctl -q enable haproxy", "the unit haproxy is enabled, and Pacemaker starts it"),
    ("systemctl -q enable ocs@02", "the unit ocs@02 is enabled, and Pacemaker starts it"),
    ("rm /dev/shm/01; touch /dev/shm/01", "/dev/shm/01 is no volume: shard 01 needs one"),
    ("rmdir /var/lib/ocs/02", "/var/lib/ocs/02 isn't there: install -d /var/lib/ocs/02"),
    ("touch /var/lib/ocs/01/01.db", "/var/lib/ocs/01 isn't mounted and has files"),
    ("echo '/dev/x /var/lib/ocs/01 xfs' > /etc/fstab", "/var/lib/ocs/01 is in /etc/fstab"),
    ("hide fuser", "fuser isn't installed: apt-get install psmisc"),
    ("hide fence_ipmilan", "fence_ipmilan isn't installed: apt-get install fence-agents"),
    ("sed -i s/aes256/aes255/ /etc/corosync/corosync.conf", "corosync: "),
    ("sed -i s/fencing/fence/ /etc/drbd.d/ocs-01.res", "drbdadm: "),
    ('sed -i \'s/with-rsc="disk01"/with-rsc="disk09"/\' /etc/ocs/cluster.xml', "crm_verify: "),
]


@pytest.fixture(scope="module", name="path")
def made(tmp_path_factory: pytest.TempPathFactory) -> pathlib.Path:
    text = TWO.replace("fence = ", 'disk = "/dev/shm/{shard}"\nfence = ')
    return file(tmp_path_factory.mktemp("check"), text)


def told(path: pathlib.Path, machine: str, *lines: str) -> str:
    """What the word says on a machine that has all, after these lines."""
    unit = pathlib.Path(__file__).resolve().parents[2] / "ocs@.service"
    whole = WHOLE.format(file=path, unit=unit)
    return on(machine, "\n".join([whole, *lines, CHECK.format(file=path)]))


@pytest.mark.parametrize("machine", ["m1", "m2", "m3"])
def test_a_machine_that_has_all_lacks_nothing(path: pathlib.Path, machine: str) -> None:
    assert told(path, machine) == "this machine has all that its part needs\nstatus 0\n"


@pytest.mark.parametrize("lines, lacking", LACKS)
def test_what_a_machine_lacks_is_named(path: pathlib.Path, lines: str, lacking: str) -> None:
    found = told(path, "m1", lines)
    assert found.startswith("status 1\n") and f"\noffice: {lacking}" in found, found
    assert found.count("\noffice: ") == (2 if "sed" in lines else 1), found


def test_a_machine_with_nothing_is_told_all_of_it(path: pathlib.Path) -> None:
    found = on("m2", CHECK.format(file=path))
    assert found.count("isn't there: office machines write") == 5
    assert found.count("is no volume") == 2 and found.count("isn't there: install -d") == 2
