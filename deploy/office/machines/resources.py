"""Pacemaker's configuration (2.1): which resource is where, in what order, and who is fenced how.

`files` calls `text`. A shard is a disk that one machine is promoted for, and a group on that
machine: the file system, the address, the unit of systemd. A machine that is lost is fenced before
anything of it is started elsewhere. Linear in the shards."""
from __future__ import annotations

import ipaddress
from xml.etree import ElementTree
from xml.etree.ElementTree import Element, SubElement

from office import cluster, shards
from office.cluster import Machine, of_disks
from office.machines import mirror
from office.settings import Settings
from office.shards import Shard

OPTIONS = {
    "stonith-enabled": "true",
    "stonith-action": "off",
    "no-quorum-policy": "stop",
}
DEFAULTS = {"resource-stickiness": "200", "migration-threshold": "3", "failure-timeout": "300"}
DISK = {
    "promotable": "true",
    "promoted-max": "1",
    "clone-max": "2",
    "clone-node-max": "1",
    "notify": "true",
}
# How often a step is taken without being asked for, in seconds; a role has its own.
DISK_LOOKS = {"Promoted": 29, "Unpromoted": 31}
DISK_STEPS = ("start", "promote", "demote", "stop", "notify")
FENCE_LOOK = 300
HOME = "50"


def text(settings: Settings) -> str:
    """The whole configuration, as `cibadmin --modify --scope configuration` takes it."""
    made = Element("configuration")
    options = SubElement(SubElement(made, "crm_config"), "cluster_property_set", id="options")
    pairs(options, "options", OPTIONS | {"cluster-name": settings.cluster.name})
    SubElement(made, "nodes")
    resources, constraints = SubElement(made, "resources"), SubElement(made, "constraints")
    for machine in settings.machines:
        if machine.fence:
            fence(settings, resources, constraints, machine)
    doors(settings, resources, constraints)
    for shard in shards.of(settings):
        a_shard(settings, resources, constraints, shard)
    meta = SubElement(SubElement(made, "rsc_defaults"), "meta_attributes", id="defaults")
    pairs(meta, "defaults", DEFAULTS)
    ElementTree.indent(made)
    return ElementTree.tostring(made, encoding="unicode") + "\n"


def whole(configuration: str) -> str:
    """A configuration as the whole that crm_verify and crm_simulate read: of a cluster that has
    never run."""
    rules = "pacemaker-3.9"
    head = f'<cib validate-with="{rules}" epoch="1" num_updates="0" admin_epoch="0">'
    return f"{head}{configuration}<status/></cib>"


def fence(settings: Settings, resources: Element, rules: Element, machine: Machine) -> None:
    """The device that takes a machine's power away; the machine itself doesn't work it."""
    name = f"fence-{machine.name}"
    made = SubElement(resources, "primitive", {"id": name, "class": "stonith"})
    made.set("type", machine.fence)
    words = dict(option.split("=", 1) for option in machine.fence_options)
    words |= {"pcmk_host_list": machine.name, "pcmk_host_check": "static-list"}
    pairs(SubElement(made, "instance_attributes", id=f"{name}-words"), name, words)
    steps(settings, made, name, (), {"": FENCE_LOOK})
    place(rules, name, machine, "-INFINITY")


def doors(settings: Settings, resources: Element, rules: Element) -> None:
    """HAProxy on each machine with disks, and the office's address where it is up."""
    made = SubElement(resources, "clone", id="doors")
    haproxy = SubElement(made, "primitive", {"id": "haproxy", "class": "systemd"})
    haproxy.set("type", "haproxy")
    steps(settings, haproxy, "haproxy", ("start", "stop"), {"": settings.cluster.look})
    moving(settings, resources, "office", settings.cluster.address)
    beside(rules, "office", "doors", {})
    only_with_disks(settings, rules, "doors")
    only_with_disks(settings, rules, "office")


def a_shard(settings: Settings, resources: Element, rules: Element, shard: Shard) -> None:
    """A shard's disk and what is on it."""
    disk, group = f"disk{shard}", f"shard{shard}"
    a_disk(settings, resources, shard)
    made = SubElement(resources, "group", id=group)
    words = {
        "device": mirror.device(shard),
        "directory": str(shard.database.parent),
        "fstype": settings.cluster.files,
    }
    agent(settings, made, f"files{shard}", "Filesystem", words)
    own, bits = settings.cluster, cluster.prefix(settings.cluster.shards_after)
    moving(settings, made, f"address{shard}", f"{cluster.address(own, shard.number)}/{bits}")
    unit = SubElement(made, "primitive", {"id": f"ocs{shard}", "class": "systemd"})
    unit.set("type", shard.unit)
    steps(settings, unit, f"ocs{shard}", ("start", "stop"), {"": settings.cluster.look})
    only_with_disks(settings, rules, disk)
    only_with_disks(settings, rules, group)
    for machine in settings.machines:
        if shard.number in machine.first:
            place(rules, group, machine, HOME)
    beside(rules, group, disk, {"with-rsc-role": "Promoted"})
    words = {"id": f"{disk}-{group}", "first": disk, "first-action": "promote", "then": group}
    SubElement(rules, "rsc_order", words | {"then-action": "start", "kind": "Mandatory"})


def a_disk(settings: Settings, resources: Element, shard: Shard) -> None:
    """A shard's resource of DRBD, on both machines, one of them promoted."""
    made = SubElement(resources, "clone", id=f"disk{shard}")
    pairs(SubElement(made, "meta_attributes", id=f"disk{shard}-meta"), f"disk{shard}", DISK)
    name = f"drbd{shard}"
    drbd = SubElement(made, "primitive", {"id": name, "class": "ocf", "provider": "linbit"})
    drbd.set("type", "drbd")
    words = SubElement(drbd, "instance_attributes", id=f"{name}-words")
    pairs(words, name, {"drbd_resource": mirror.name(shard)})
    steps(settings, drbd, name, DISK_STEPS, DISK_LOOKS)


def moving(settings: Settings, within: Element, name: str, address: str) -> None:
    """An address that moves, with the bits of its network."""
    told = ipaddress.ip_interface(address)
    words = {"ip": str(told.ip), "cidr_netmask": str(told.network.prefixlen)}
    agent(settings, within, name, "IPaddr2", words)


def agent(settings: Settings, within: Element, name: str, kind: str, words: dict[str, str]) -> None:
    """A resource of one of Pacemaker's agents."""
    made = SubElement(within, "primitive", {"id": name, "class": "ocf", "provider": "heartbeat"})
    made.set("type", kind)
    pairs(SubElement(made, "instance_attributes", id=f"{name}-words"), name, words)
    steps(settings, made, name, ("start", "stop"), {"": settings.cluster.look})


def steps(
    settings: Settings,
    within: Element,
    name: str,
    once: tuple[str, ...],
    looks: dict[str, int],
) -> None:
    """The steps of a resource, each with the time that it may take."""
    made = SubElement(within, "operations")
    timeout = str(settings.cluster.patience)
    for step in once:
        SubElement(made, "op", id=f"{name}-{step}", name=step, interval="0", timeout=timeout)
    for role, seconds in looks.items():
        more = {"role": role} if role else {}
        id = f"{name}-monitor-{seconds}"
        SubElement(made, "op", more, id=id, name="monitor", interval=str(seconds), timeout=timeout)


def only_with_disks(settings: Settings, rules: Element, name: str) -> None:
    """A resource is never on a machine with a vote only, nor looked for there: what it needs isn't
    installed there."""
    disks = of_disks(settings.machines)
    for machine in settings.machines:
        if machine not in disks:
            place(rules, name, machine, "-INFINITY").set("resource-discovery", "never")


def beside(rules: Element, name: str, other: str, more: dict[str, str]) -> None:
    """A resource is where another one is."""
    words = {"id": f"{name}-{other}", "rsc": name, "with-rsc": other}
    SubElement(rules, "rsc_colocation", words | more | {"score": "INFINITY"})


def place(rules: Element, name: str, machine: Machine, score: str) -> Element:
    """How much a resource belongs to a machine."""
    id = f"{name}-{machine.name}"
    return SubElement(rules, "rsc_location", id=id, rsc=name, node=machine.name, score=score)


def pairs(within: Element, name: str, values: dict[str, str]) -> None:
    """Names with their values."""
    for key, value in values.items():
        SubElement(within, "nvpair", id=f"{name}-{key}", name=key, value=value)
