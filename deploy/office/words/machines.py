"""Two machines for the shards: what the file says, what is written, what is missing here.

    office machines              # says who has which shard, who votes, how each is fenced
    office machines write        # writes this machine's files below /etc
    office machines check        # says what this machine lacks; 1 where it lacks anything

`write` writes a resource of DRBD a shard, Corosync's file, Pacemaker's configuration
(/etc/ocs/cluster.xml), and what a shard's unit has beside its own file; a machine with a vote only
gets Corosync's file. It loads none of them into a running engine: it says which line does.
HAProxy's file is that of `office up`. With the same words again it writes what has changed since. A
file that names no machine is an office on this machine alone."""
from __future__ import annotations

import argparse
import sys

from office import cluster, options, shards
from office.cluster import Machine
from office.faults import Unread
from office.machines import files, missing
from office.settings import Settings

# What takes a file that was written, by the end of its path.
LOADED = {
    ".res": "drbdadm adjust {stem}",
    ".conf": "corosync-cfgtool -R, once the file is on each machine",
    # Never --replace, which takes away the mark that keeps an old copy from being promoted.
    ".xml": "cibadmin --modify --allow-create --scope configuration --xml-file {path}",
    "machines.conf": "systemctl daemon-reload",
}


def add(parser: argparse.ArgumentParser) -> None:
    """Adds the word's arguments."""
    parser.add_argument("what", nargs="?", choices=("write", "check"), metavar="write|check")
    options.dry_run(parser)


def run(settings: Settings, arguments: argparse.Namespace) -> int:
    """Says, writes or checks."""
    if arguments.dry_run and arguments.what != "write":
        raise Unread("--dry-run belongs to write")
    if not settings.machines:
        print("the file names no machine: the office is on this one alone")
        return 0
    if arguments.what == "write":
        return write(settings, arguments.dry_run)
    if arguments.what == "check":
        return check(settings)
    for machine in settings.machines:
        print(described(settings, machine))
    print(f"gateways ask {settings.cluster.address.partition('/')[0]}, wherever HAProxy is up")
    return 0


def described(settings: Settings, machine: Machine) -> str:
    """What a machine does."""
    head = f"{machine.name} at {machine.own} and {machine.office}"
    if machine.only:
        return f"{head}: a vote only"
    disks = cluster.of_disks(settings.machines)
    other = next(each for each in disks if each is not machine)
    lived = ", ".join(machine.first) or "none"
    return (
        f"{head}: disks of {len(shards.of(settings))} shards\n"
        f"    shards {lived} while both are up, the others when {other.name} is lost\n"
        f"    {machine.fence} takes its power away"
    )


def write(settings: Settings, is_dry: bool) -> int:
    """Writes this machine's files."""
    for path, text in files.of(settings, files.this_machine(settings)).items():
        if files.is_there(path, text):
            print(f"{path} {'would be ' if is_dry else ''}as before")
            continue
        if not is_dry:
            files.put(path, text)
        ends = next(end for end in reversed(LOADED) if str(path).endswith(end))
        line = LOADED[ends].format(path=path, stem=path.stem)
        print(f"{path} {'would be ' if is_dry else ''}written; it is taken by: {line}")
    return 0


def check(settings: Settings) -> int:
    """Says what this machine lacks."""
    lacking = list(missing.of(settings, files.this_machine(settings)))
    for fault in lacking:
        print(f"office: {fault}", file=sys.stderr)
    if not lacking:
        print("this machine has all that its part needs")
    return 1 if lacking else 0
