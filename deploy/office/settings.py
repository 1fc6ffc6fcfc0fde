"""The office's one file, /etc/ocs/office.toml: what it may say, and what it says.

`command.main` reads it once and hands it to the word. Every key has a default, so that an office of
four shards on this machine alone needs no file. A key that isn't known is refused by its name. A
subject with a table of its own adds a dataclass and a field of `Settings`."""
from __future__ import annotations

import dataclasses
import pathlib
import tomllib
from collections.abc import Sequence
from typing import Protocol

from office import cluster, schema
from office.agent.table import Agent
from office.archive.table import Archive
from office.bridges import Diameter
from office.cluster import Cluster, Machine
from office.faults import Unread
from office.keeping import Keeping

FILE = pathlib.Path("/etc/ocs/office.toml")
MOST_SHARDS = 99
NAME = (r"[a-z0-9][a-z0-9.-]{0,31}", "a name of a-z, 0-9, dots and hyphens, at most 32")
HOST = (r"[A-Za-z0-9.-]{1,200}(:[0-9]{1,5})?", "a host, with a port where it isn't 80 or 443")
PATH = (r"|/[!#-&(-\[\]-~]{1,200}", "an absolute path without spaces, quotes and backslashes")
PLACE = (r"/[!#-&(-\[\]-~]{1,90}|[0-9.]{7,15}:[0-9]{1,5}", "an address:port or a socket's path")
USER = (r"|[a-z_][a-z0-9_-]{0,31}", "the name of a user")
# HAProxy's one thread reckons the hash for each request: 5,000 rounds take it 4 ms.
HASH = (
    r"|\$5\$(rounds=[1-4][0-9]{3}\$)[./0-9A-Za-z]{1,16}\$[./0-9A-Za-z]{43}",
    "a hash that `office password` prints",
)
ROLES = ("gateway", "shop", "operator", "script", "watcher")


@dataclasses.dataclass(frozen=True, kw_only=True)
class Office:
    """`[office]`: the shards, their files and their units."""

    # Shards that the hash of an account chooses from, and those besides, which `moved` alone names.
    shards: int = schema.whole(4, 1, MOST_SHARDS)
    more: int = schema.whole(0, 0, MOST_SHARDS - 1)
    # Shard 01 listens on this port of 127.0.0.1 and one more.
    first_port: int = schema.whole(8100, 1024, 65436)
    databases: str = schema.text("/var/lib/ocs", *PATH)
    program: str = schema.text("/usr/local/bin/ocs", *PATH)
    # Whom the shards run as; empty: whom the command runs as.
    owner: str = schema.text("ocs", *USER)
    unit: str = schema.text("ocs@{shard}", r"[a-zA-Z0-9@_.{}-]{1,60}", "a unit's name")
    # Whether the clock must have been synchronised since the boot before a shard starts; false
    # where nothing synchronises it.
    synchronised: bool = schema.flag(True)
    # Lines `ACCOUNT SHARD`, once a shard was split; a file that isn't there has none.
    moved: str = schema.text("/etc/ocs/moved", *PATH)
    # An account of each shard, onto which codes of other shards are redeemed.
    clearing: str = schema.text("/etc/ocs/clearing", *PATH)
    # What the doors for people return at /office; its script and its style lie beside it.
    page: str = schema.text("/usr/local/share/ocs/console/console.html", *PATH)


@dataclasses.dataclass(frozen=True, kw_only=True)
class Proxy:
    """`[haproxy]`: the process in front of the shards."""

    # Whom it runs as; empty: whom it is started as.
    user: str = schema.text("haproxy", *USER)
    sockets: str = schema.text("/run/haproxy", *PATH)
    # Its configuration, which `office up` writes.
    file: str = schema.text("/etc/haproxy/haproxy.cfg", *PATH)
    # A file with the lines of its log; empty: the journal of the unit haproxy.
    log: str = schema.text("", *PATH)


@dataclasses.dataclass(frozen=True, kw_only=True)
class Waits:
    """`[waits]`, in seconds. A gateway waits longer than `queue`, `start` and `answer` together."""

    # For a client: to shake hands, to send a request whole, to go on taking an answer.
    request: int = schema.whole(10, 1, 60)
    start: int = schema.whole(20, 1, 600)  # for a shard that starts again
    queue: int = schema.whole(20, 1, 600)  # for its turn
    answer: int = schema.whole(30, 1, 600)  # for a shard's answer
    idle: int = schema.whole(75, 1, 600)  # for the next request of a connection


@dataclasses.dataclass(frozen=True, kw_only=True)
class Tls:
    """`[tls]`: what the doors on a network show, and by what they know their clients."""

    # Where `office certificate` keeps the authority; the keys of clients are made there too.
    authority: str = schema.text("/etc/ocs/authority", *PATH)
    certificate: str = schema.text("/etc/ocs/tls/office.pem", *PATH)
    clients: str = schema.text("/etc/ocs/tls/clients.pem", *PATH)
    revoked: str = schema.text("/etc/ocs/tls/revoked.pem", *PATH)
    # Connections that one address may have at all doors with tls together.
    an_address: int = schema.whole(100, 1, 20000)


@dataclasses.dataclass(frozen=True, kw_only=True)
class Measures:
    """`[measures]`: what `office measures` shows to Prometheus."""

    # Of 127.0.0.1.
    port: int = schema.whole(8405, 1024, 65535)
    # Seconds that a shard's probe may take, its turn in the queue among them.
    probe: int = schema.whole(5, 1, 60)


@dataclasses.dataclass(frozen=True, kw_only=True)
class Door:
    """`[[door]]`: a role and a place."""

    name: str = schema.text(None, *NAME)
    role: str = schema.text(None, "|".join(ROLES), f"one of {', '.join(ROLES)}")
    at: str = schema.text(None, *PLACE)
    tls: bool = schema.flag(False)
    # What a Host field may say; empty: anything, which a door for browsers doesn't take.
    hosts: tuple[str, ...] = schema.texts(*HOST)
    # Who may open a socket beside root.
    group: str = schema.text("", *USER)
    connections: int = schema.whole(500, 1, 20000)
    # Whether whoever asks at a gateways' door without tls may refund.
    refunds: bool = schema.flag(False)

    def is_socket(self) -> bool:
        """Whether it is a socket of the file system."""
        return self.at.startswith("/")

    def is_here(self) -> bool:
        """Whether it can be reached from this machine alone."""
        return self.is_socket() or self.at.startswith("127.")

    def is_for_people(self) -> bool:
        """Whether the page is here; at a shops' door it is where the door says its hosts."""
        return self.role == "operator" or (self.role == "shop" and bool(self.hosts))


class Named(Protocol):
    """Whatever has a name."""

    @property
    def name(self) -> str:
        """The name."""


@dataclasses.dataclass(frozen=True, kw_only=True)
class Caller:
    """Who may come: requests at once (waiting or under way) and in a second; more are 429."""

    name: str = schema.text(None, *NAME)
    at_once: int = schema.whole(20, 1, 1000)
    a_second: int = schema.whole(200, 1, 10000)


@dataclasses.dataclass(frozen=True, kw_only=True)
class Gateway(Caller):
    """`[[gateway]]`. A refund is money from nothing, so it is a right of its own."""

    refunds: bool = schema.flag(False)


@dataclasses.dataclass(frozen=True, kw_only=True)
class Shop(Caller):
    """`[[shop]]`."""


@dataclasses.dataclass(frozen=True, kw_only=True)
class Operator(Caller):
    """`[[operator]]`: by certificate, or by name and password."""

    only: str = schema.text("", "|read", '"read"')
    password: str = schema.text("", *HASH)


FIRST_DOORS = (
    Door(
        name="gateways",
        role="gateway",
        at="127.0.0.1:8080",
        hosts=("127.0.0.1:8080", "localhost:8080"),
    ),
    Door(
        name="operators",
        role="operator",
        at="127.0.0.1:8081",
        hosts=("127.0.0.1:8081", "localhost:8081"),
    ),
    Door(name="scripts", role="script", at="/run/haproxy/office.sock"),
    Door(name="measures", role="watcher", at="127.0.0.1:8404"),
)


@dataclasses.dataclass(frozen=True, kw_only=True)
class Settings:
    """The whole file."""

    office: Office = schema.one(Office)
    haproxy: Proxy = schema.one(Proxy)
    waits: Waits = schema.one(Waits)
    keeping: Keeping = schema.one(Keeping)
    tls: Tls = schema.one(Tls)
    measures: Measures = schema.one(Measures)
    agent: Agent = schema.one(Agent)
    archive: Archive = schema.one(Archive)
    diameter: Diameter = schema.one(Diameter)
    cluster: Cluster = schema.one(Cluster)
    # Without one, `first_doors`: on this machine alone, without certificates.
    doors: tuple[Door, ...] = schema.many(Door, "door")
    gateways: tuple[Gateway, ...] = schema.many(Gateway, "gateway")
    shops: tuple[Shop, ...] = schema.many(Shop, "shop")
    operators: tuple[Operator, ...] = schema.many(Operator, "operator")
    # None: the office is on this machine alone.
    machines: tuple[Machine, ...] = schema.many(Machine, "machine")

    def callers(self, role: str) -> tuple[Caller, ...]:
        """Who may come in this role."""
        rows: dict[str, tuple[Caller, ...]] = {
            "gateway": self.gateways,
            "shop": self.shops,
            "operator": self.operators,
        }
        return rows.get(role, ())

    def scripts(self) -> str:
        """The socket at which words ask, and alone may name a shard."""
        found = [door.at for door in self.doors if door.role == "script"]
        if not found:
            raise Unread("door: none has the role script, at which the command's words ask")
        return found[0]


def read(path: pathlib.Path = FILE) -> Settings:
    """The settings of a file; where the usual file isn't there, the defaults."""
    try:
        value = tomllib.loads(path.read_text(encoding="utf-8"))
    except FileNotFoundError as fault:
        if path != FILE:
            raise Unread(f"{path}: {fault.strerror}") from fault
        value = {}
    except (OSError, UnicodeDecodeError, tomllib.TOMLDecodeError) as fault:
        raise Unread(f"{path}: {fault}") from fault
    try:
        settings = schema.table(Settings, "", value)
        if not settings.doors:
            settings = dataclasses.replace(settings, doors=first_doors(settings.haproxy))
        judge(settings)
    except Unread as fault:
        raise Unread(f"{path}: {fault}") from fault
    return settings


def first_doors(proxy: Proxy) -> tuple[Door, ...]:
    """The doors of a file that names none."""
    at = f"{proxy.sockets}/office.sock"
    return tuple(
        dataclasses.replace(door, at=at) if door.role == "script" else door for door in FIRST_DOORS
    )


def judge(settings: Settings) -> None:
    """Sees that the parts fit each other: numbers of shards, names, doors."""
    office = settings.office
    if office.shards + office.more > MOST_SHARDS:
        raise Unread(f"office: shards and more are above {MOST_SHARDS} together")
    are_distinct("door", settings.doors)
    are_distinct("gateway", settings.gateways)
    are_distinct("shop", settings.shops)
    are_distinct("operator", settings.operators)
    are_distinct("machine", settings.machines)
    numbers = [f"{at:02}" for at in range(1, office.shards + office.more + 1)]
    cluster.judge(settings.cluster, settings.machines, numbers)
    if settings.machines and office.unit != Office.unit:
        raise Unread(f"office: unit: with machines it is {Office.unit}, not {office.unit}")
    if settings.machines and office.first_port % 100:
        raise Unread(f"office: first-port: {office.first_port} isn't a multiple of 100")
    for door in settings.doors:
        judge_door(settings, door)


def are_distinct(key: str, rows: Sequence[Named]) -> None:
    """Refuses two rows of one name."""
    names = [row.name for row in rows]
    for name in names:
        if names.count(name) > 1:
            raise Unread(f"{key}: {name!r} is there twice")


def judge_door(settings: Settings, door: Door) -> None:
    """Refuses a door that would let in whoever comes, or that another one is in the way of."""
    where = f"door {door.name!r}"
    if [each.at for each in settings.doors].count(door.at) > 1:
        raise Unread(f"{where}: another door is at {door.at} too")
    if not door.is_here() and not door.tls:
        raise Unread(f"{where}: {door.at} is on a network, and tls isn't true")
    if door.tls and door.role not in ("gateway", "shop", "operator"):
        raise Unread(f"{where}: the role {door.role} has no certificates")
    if door.role == "script" and not door.is_socket():
        raise Unread(f"{where}: the role script is at a socket's path, not {door.at}")
    if door.role == "operator" and not door.hosts:
        raise Unread(f"{where}: a door for browsers says its hosts")
