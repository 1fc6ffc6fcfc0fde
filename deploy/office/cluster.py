"""`[cluster]` and `[[machine]]` of the office's file: two machines that have the shards' disks, and
one or more that vote.

`settings` reads it, `office machines` makes DRBD's, Corosync's and Pacemaker's files of it
(machines/), and `doors.configuration` HAProxy's lines. A file without machines is an office on this
machine alone."""
from __future__ import annotations

import dataclasses
import ipaddress
from collections.abc import Iterable, Sequence

from office import schema
from office.faults import Unread

NAME = (r"[a-z0-9][a-z0-9-]{0,31}", "a host's name of a-z, 0-9 and hyphens, at most 32")
ADDRESS = (r"[0-9]{1,3}(\.[0-9]{1,3}){3}", "an address such as 10.51.0.11")
NETWORK = (r"|[0-9]{1,3}(\.[0-9]{1,3}){3}/[0-9]{1,2}", "an address and a prefix: 10.50.0.100/24")
NUMBER = (r"[0-9]{2}", "a shard's number such as 01")
AGENT = (r"|fence_[a-z0-9_]{1,40}", "a fence agent such as fence_ipmilan")
OPTION = (r"[a-z0-9_]{1,40}=[^\s\"'<>&]{1,200}", "NAME=VALUE without spaces and quotes")
DISK = (r"/dev/[A-Za-z0-9/_.{}-]{1,90}", "a path below /dev, with {shard} in it")
KINDS = ("xfs", "ext4")
VOTES = 3
# Where the shards' file systems are mounted, below the folder of the databases.
MOUNT = "{databases}/{shard}"


@dataclasses.dataclass(frozen=True, kw_only=True)
class Cluster:
    """`[cluster]`: what the machines have together."""

    name: str = schema.text("office", *NAME)
    # The address that gateways ask, on their network; it moves.
    address: str = schema.text("", *NETWORK)
    # Shard 01 has the next address after this one, and so on, on the machines' own network; they
    # move with the disks.
    shards_after: str = schema.text("", *NETWORK)
    # Ports on the machines' own network: shard 01's relay of HAProxy, and its DRBD, at one more.
    relays: int = schema.whole(8200, 1024, 65400)
    mirrors: int = schema.whole(7700, 1024, 65400)
    # The file system of a shard.
    files: str = schema.text("xfs", "|".join(KINDS), f"one of {', '.join(KINDS)}")
    # Milliseconds of silence after which a machine is taken for lost.
    token: int = schema.whole(5000, 1000, 60000)
    # Seconds that a step of Pacemaker may take on a busy machine.
    patience: int = schema.whole(120, 20, 600)
    # Seconds from one look at what it started to the next: a process that died is seen by then.
    look: int = schema.whole(10, 2, 300)
    # Percent of a shard's volume that its snapshot may take while a copy is read from it.
    snapshot: int = schema.whole(10, 1, 100)


@dataclasses.dataclass(frozen=True, kw_only=True)
class Machine:
    """`[[machine]]`."""

    # What `uname -n` prints there.
    name: str = schema.text(None, *NAME)
    # Its addresses on the machines' own network and on the gateways'.
    own: str = schema.text(None, *ADDRESS)
    office: str = schema.text(None, *ADDRESS)
    only: str = schema.text("", "|vote", '"vote"')
    # The volume of each shard.
    disk: str = schema.text("/dev/office/{shard}", *DISK)
    # Shards that live here while both machines are up.
    first: tuple[str, ...] = schema.texts(*NUMBER)
    # How the others take its power away.
    fence: str = schema.text("", *AGENT)
    fence_options: tuple[str, ...] = schema.texts(*OPTION)


def of_disks(machines: Iterable[Machine]) -> list[Machine]:
    """The machines that have disks."""
    return [machine for machine in machines if not machine.only]


def address(cluster: Cluster, number: str) -> str:
    """The address of a shard on the machines' own network."""
    return str(ipaddress.ip_interface(cluster.shards_after).ip + int(number))


def prefix(text: str) -> int:
    """The bits of an address's network."""
    return ipaddress.ip_interface(text).network.prefixlen


def judge(cluster: Cluster, machines: Sequence[Machine], numbers: Sequence[str]) -> None:
    """Sees that machines, addresses, votes, fencing and shards fit each other."""
    if not machines:
        if cluster != Cluster():
            raise Unread("cluster: there is no [[machine]]")
        return
    disks = of_disks(machines)
    if len(disks) != 2:
        raise Unread(f"machine: {len(disks)} have disks, and DRBD 8.4 has a disk on each of two")
    if len(machines) < VOTES:
        raise Unread('machine: two votes are no majority of two: add a machine with only = "vote"')
    if len(machines) % 2 == 0:
        raise Unread(f"machine: {len(machines)} votes can be halved: an odd number can't")
    judge_addresses(cluster, machines, numbers)
    for machine in machines:
        judge_machine(machine)
    lived = [number for machine in machines for number in machine.first]
    for number in numbers:
        if lived.count(number) != 1:
            raise Unread(f"machine: first: shard {number} is there {lived.count(number)} times")
    for number in lived:
        if number not in numbers:
            raise Unread(f"machine: first: there is no shard {number}")


def judge_addresses(cluster: Cluster, machines: Sequence[Machine], numbers: Sequence[str]) -> None:
    """Refuses addresses that aren't, that are there twice, or that are on the other network."""
    for key, text in (("address", cluster.address), ("shards-after", cluster.shards_after)):
        if not text:
            raise Unread(f"cluster: {key} is missing")
    gateways, own = network("address", cluster.address), network(
        "shards-after", cluster.shards_after
    )
    if gateways.overlaps(own):
        raise Unread("cluster: address and shards-after are on one network, not on two")
    places = [(f"machine {each.name!r}: own", each.own, own) for each in machines]
    places += [(f"machine {each.name!r}: office", each.office, gateways) for each in machines]
    places += [(f"shard {number}", address(cluster, number), own) for number in numbers]
    places.append(("cluster: address", str(ipaddress.ip_interface(cluster.address).ip), gateways))
    seen: dict[str, str] = {}
    for where, text, wanted in places:
        if text in seen:
            raise Unread(f"{where}: {text} is {seen[text]} too")
        if read_address(where, text) not in wanted:
            raise Unread(f"{where}: {text} isn't on {wanted}")
        seen[text] = where


def network(key: str, text: str) -> ipaddress.IPv4Network:
    """The network of an address with its bits."""
    try:
        return ipaddress.IPv4Interface(text).network
    except ValueError as fault:
        raise Unread(f"cluster: {key}: {fault}") from fault


def read_address(where: str, text: str) -> ipaddress.IPv4Address:
    """An address."""
    try:
        return ipaddress.IPv4Address(text)
    except ValueError as fault:
        raise Unread(f"{where}: {fault}") from fault


def judge_machine(machine: Machine) -> None:
    """Refuses a machine that can't be fenced, one disk for all shards, and a vote with shards."""
    where = f"machine {machine.name!r}"
    if machine.only:
        if machine.first:
            raise Unread(f"{where}: first: it has a vote only, and no shards")
        if machine.fence or machine.fence_options:
            raise Unread(f"{where}: fence: it has a vote only, and nothing to be fenced from")
        return
    if not machine.fence:
        raise Unread(f"{where}: fence is missing: without it two machines may serve one shard")
    if "{shard}" not in machine.disk:
        raise Unread(f"{where}: disk: {machine.disk!r} has no {{shard}} in it")
    names = [option.partition("=")[0] for option in machine.fence_options]
    for name in names:
        if names.count(name) > 1:
            raise Unread(f"{where}: fence-options: {name} is there twice")
