"""The set-up of MACHINES.md, carried out on a site's machines by the blocks of the page and of
README, letter by letter."""
from __future__ import annotations

import concurrent.futures
import re
import shutil
import tarfile
import time
from collections.abc import Callable, Iterable

from support.image import PACKAGES
from support.machine import SHARED, Machine
from support.served import BOOKS
from support.waiting import until
from support.world import DEPLOY, program

from machines import page
from machines.site import SHARDS, Site

README = DEPLOY / "README.md"
TOP = f"{SHARED}/top"
# A machine of a test gets the time from the one that it is on. A process costs it a tenth of a second,
# and beside other work seconds: Pacemaker looks less often there, and gives each step more time.
CHANGES = {
    "shards = 4 ": "shards = 2 ",
    "synchronised = true ": "synchronised = false ",
    "look = 10 ": "look = 60 ",
    "patience = 120 ": "patience = 300 ",
}
# The page's volumes are larger than a test's.
VOLUME = ("-L 50G", "-L 400M")
INSTALL, KEY, FENCE = "apt-get install -y ", "corosync-keygen\n", "stonith_admin --reboot m2\n"
# User-mode-linux has no nf_tables.
KERNEL = "nft "
CLUSTER, ALL_THERE = (
    "systemctl start corosync pacemaker\n",
    r"partition with quorum(.|\n)*Online: \[ m1 m2 m3 ]",
)
VOLUMES = "pvcreate -q /dev/nbd0 && vgcreate -q office /dev/nbd0"
# Of the page's file: the password of a fence device is what a script prints.
FILES = f"""
install -D -m 600 {SHARED}/office.toml /etc/ocs/office.toml
for m in m1 m2; do
    printf '#!/bin/sh\\necho secret\\n' > /etc/ocs/fence-$m
    chmod 700 /etc/ocs/fence-$m
done
"""
CERTIFICATES = """
office certificate office --host office.example
office certificate gateway pgw-1
office certificate operator ada
"""
# What goes from m1 to others by a safe way, here a folder of the test's.
KEY_FILE, TLS, AUTHORITY = "etc/corosync/authkey", "etc/ocs/tls", "etc/ocs/authority"
OURS = [f"{AUTHORITY}/{who}.{kind}" for who in ("pgw-1", "ada") for kind in ("crt", "key")]
LOOKS = 3.0
IN_STEP = "[ $(grep -c 'cs:Connected .* ds:UpToDate/UpToDate ' /proc/drbd) = 2 ]"
SERVED = re.compile(r"\(systemd:ocs@(\d\d)\):\s+Started (m\d)\n")


def set_up(site: Site) -> None:
    """Carries out the page's steps, down to the fence devices."""
    (site.place / "office.toml").write_text(office_file())
    for name in site.machines:
        site.power(name)
    each(site, site.machines, ready)
    each(site, ("m1", "m2"), lambda one: one.sh(VOLUMES))
    site.sh("m1", f"set -e\n{CERTIFICATES}")
    for names, lines in page.blocks(page.section("Set up")):
        begun = time.monotonic()
        if lines.startswith(INSTALL):
            assert set(lines.removeprefix(INSTALL).split()) <= set(PACKAGES), lines
        elif lines == FENCE:
            fence(site)
        elif not lines.startswith(KERNEL):
            carry_out(site, names, lines)
        print(f"{time.monotonic() - begun:.0f} s: {lines.splitlines()[0]}", flush=True)


def carry_out(site: Site, names: Iterable[str], lines: str) -> None:
    """A block of the page, on the machines that it is for; a line that fails ends it."""
    text = f"set -e\ncd {TOP}\n{lines.replace(*VOLUME)}"
    each(site, names, lambda one: one.sh(text))
    if lines == KEY:
        bring(site)
    if lines == CLUSTER:
        until(
            lambda: re.search(ALL_THERE, site.sh("m1", "crm_mon -1 || :")),
            "the cluster",
            300,
            LOOKS,
        )


def fence(site: Site) -> None:
    """Each machine is fenced by hand, once both are served and in step."""
    for name in ("m2", "m1"):
        whole(site)
        site.board.asked.clear()
        site.sh("m3" if name == "m1" else "m1", FENCE.replace("m2", name))
        told = [word for _, asked, word in site.board.asked if asked == name]
        assert "off" in told and "on" in told, site.board.asked
        site.machines[name].wait()
    whole(site)


def whole(site: Site) -> None:
    """Waits until each shard is served and both copies of each are in step. A look costs the machine
    that is asked some tenths of a second."""
    until(lambda: is_whole(site), "both shards, and their copies", 900, LOOKS)


def is_whole(site: Site) -> bool:
    """Whether each shard is served and both copies of each are in step."""
    if len(served(site)) < len(SHARDS):
        return False
    return all(site.machines[name].told(IN_STEP, 600)[0] == 0 for name in ("m1", "m2"))


def each(site: Site, names: Iterable[str], work: Callable[[Machine], object]) -> None:
    """Works on machines at once."""
    with concurrent.futures.ThreadPoolExecutor() as pool:
        list(pool.map(lambda name: work(site.machines[name]), names))


def ready(one: Machine) -> None:
    """A machine has what README's lines install, and the office's file."""
    top = one.shared / "top"
    without = shutil.ignore_patterns("__pycache__", "test", "pictures")
    shutil.copytree(DEPLOY, top / "deploy", ignore=without)
    (top / "crates/ocs/out").mkdir(parents=True)
    shutil.copy(program(), top / "crates/ocs/out/ocs")
    (top / "book.toml").write_text(BOOKS[0])
    shutil.copy(one.place.parent / "office.toml", one.shared)
    one.wait()
    lines = page.fenced(page.section("Set up", README))
    begin, end = lines.index("useradd "), lines.index("for s in ")
    one.sh(f"set -e\ncd {TOP}\n{lines[begin:end]}{FILES}")


def office_file() -> str:
    """The office's file: the repository's example with the page's last lines."""
    text = (DEPLOY / "office.toml").read_text(encoding="utf-8")
    text += "\n" + page.fenced(page.section("The file"))
    for old, new in CHANGES.items():
        assert old in text
        text = text.replace(old, new)
    return text


def bring(site: Site) -> None:
    """Corosync's key goes to the others, certificates to m2 and to who asks."""
    safe = site.machines["m1"].shared / "safe"
    site.sh("m1", f"tar -C / -cf {SHARED}/safe {KEY_FILE} {TLS} {AUTHORITY}")
    for name, what in (("m2", f"{KEY_FILE} {TLS}"), ("m3", KEY_FILE)):
        shutil.copy(safe, site.machines[name].shared / "safe")
        site.sh(name, f"tar -C / -xf {SHARED}/safe {what}")
    with tarfile.open(safe) as files:
        for path in [f"{TLS}/clients.pem", *OURS]:
            told = files.extractfile(path)
            assert told
            (site.place / path.rpartition("/")[2]).write_bytes(told.read())


def served(site: Site) -> dict[str, str]:
    """The machine that each shard is served on, as the third machine sees it."""
    return dict(SERVED.findall(site.sh("m3", "crm_mon -1r")))
