"""An office of two machines and a vote, in files and in namespaces."""
from __future__ import annotations

import pathlib
import subprocess

from support.world import DEPLOY, OFFICE, ran

TWO = """\
[office]
shards = 2
page = "{page}"
[cluster]
address = "10.50.0.100/24"
shards-after = "10.51.0.100/24"
[[machine]]
name = "m1"
own = "10.51.0.11"
office = "10.50.0.11"
first = ["01"]
fence = "fence_ipmilan"
fence-options = ["ip=10.52.0.11", "username=office", "password_script=/bin/true"]
[[machine]]
name = "m2"
own = "10.51.0.12"
office = "10.50.0.12"
first = ["02"]
fence = "fence_ipmilan"
fence-options = ["ip=10.52.0.12", "username=office", "password_script=/bin/true"]
[[machine]]
name = "m3"
own = "10.51.0.13"
office = "10.50.0.13"
only = "vote"
"""
ONE = '[office]\nshards = 2\npage = "{page}"\n'
# A machine of this name in namespaces of its own, with its addresses; what is written in /etc,
# /var/lib, /mnt and /dev/shm goes with it: NAME OWN OFFICE LINES.
MACHINE = r"""
set -eu
hostname "$1"
ip link set lo up
ip link add eth1 type bridge && ip link set eth1 up && ip addr add "$2/24" dev eth1
ip link add eth0 type bridge && ip link set eth0 up && ip addr add "$3/24" dev eth0
mount -t tmpfs tmpfs /mnt
mount -t tmpfs tmpfs /dev/shm
for place in etc var/lib; do
    mkdir -p "/mnt/$place/upper" "/mnt/$place/work"
    layers="lowerdir=/$place,upperdir=/mnt/$place/upper,workdir=/mnt/$place/work"
    mount -t overlay overlay -o "$layers" "/$place"
done
rm -rf /etc/ocs /var/lib/ocs /etc/drbd.d/ocs-* /etc/corosync /etc/systemd/system/ocs@*
mkdir /etc/ocs /var/lib/ocs /etc/corosync
set +e
eval "$4"
"""
NUMBERS = {"m1": "11", "m2": "12", "m3": "13", "m9": "19"}


def file(place: pathlib.Path, text: str = TWO, old: str = "", new: str = "") -> pathlib.Path:
    """The office's file in a folder, with a text in place of another."""
    assert old in text
    made = place / "office.toml"
    text = text.replace("{page}", str(DEPLOY / "console/console.html"))
    made.write_text(text.replace(old, new, 1) if old else text)
    return made


def office(path: pathlib.Path, *words: object) -> subprocess.CompletedProcess[str]:
    """The command over an office's file, whatever its status."""
    return ran(OFFICE, "--file", path, *words)


def on(machine: str, lines: str) -> str:
    """What lines of a shell print on both streams on a machine of this name, with its addresses and
    with nothing written yet; `office` is the command's path."""
    number = NUMBERS[machine]
    words = ["unshare", "--mount", "--uts", "--net", "sh", "-c", MACHINE, "sh"]
    words += [machine, f"10.51.0.{number}", f"10.50.0.{number}", f"office={OFFICE}\n{lines}"]
    told = ran(*words, timeout=120)
    return told.stdout + told.stderr
