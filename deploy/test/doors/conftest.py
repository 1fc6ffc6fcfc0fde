"""The office of the tests of doors: each kind of door, with and without TLS, over four shards."""
from __future__ import annotations

import pathlib
from collections.abc import Callable, Iterator

import pytest
from support import ports
from support.callers import Caller
from support.world import DEPLOY, World, done

DOORS = ("gateways", "shops", "operators", "here", "refunding", "desk", "counter", "measures")
FILE = """
[office]
shards = 4
first-port = {first}
databases = "{place}"
moved = "{place}/moved"
owner = ""
page = "{page}"
clearing = "{place}/clearing"
[haproxy]
user = ""
sockets = "{place}"
[waits]
request = 3
start = 12
queue = 15
answer = 10
[tls]
authority = "{place}/authority"
certificate = "{place}/tls/office.pem"
clients = "{place}/tls/clients.pem"
revoked = "{place}/tls/revoked.pem"
an-address = 260
[[door]]
name = "gateways"
role = "gateway"
at = "127.0.0.1:{gateways}"
tls = true
hosts = ["localhost:{gateways}"]
connections = 300
[[door]]
name = "shops"
role = "shop"
at = "127.0.0.1:{shops}"
tls = true
hosts = ["localhost:{shops}"]
[[door]]
name = "operators"
role = "operator"
at = "127.0.0.1:{operators}"
tls = true
hosts = ["localhost:{operators}"]
[[door]]
name = "here"
role = "gateway"
at = "127.0.0.1:{here}"
hosts = ["127.0.0.1:{here}", "localhost:{here}"]
[[door]]
name = "refunding"
role = "gateway"
at = "127.0.0.1:{refunding}"
refunds = true
[[door]]
name = "desk"
role = "operator"
at = "127.0.0.1:{desk}"
hosts = ["127.0.0.1:{desk}"]
[[door]]
name = "counter"
role = "shop"
at = "127.0.0.1:{counter}"
[[door]]
name = "scripts"
role = "script"
at = "{place}/office.sock"
[[door]]
name = "measures"
role = "watcher"
at = "127.0.0.1:{measures}"
[[gateway]]
name = "pgw-1"
at-once = 20
[[gateway]]
name = "pgw-2"
at-once = 100
a-second = 1000
refunds = true
[[gateway]]
name = "pgw-old"
[[shop]]
name = "shop-7"
a-second = 30
[[shop]]
name = "shop-8"
a-second = 10000
[[shop]]
name = "shop-9"
a-second = 10000
[[operator]]
name = "ada"
a-second = 10000
[[operator]]
name = "audit"
only = "read"
a-second = 10000
[[operator]]
name = "grace"
password = "{hash}"
"""
CLIENTS = {
    "pgw-1": "gateway",
    "pgw-2": "gateway",
    "pgw-unnamed": "gateway",
    "pgw-old": "gateway",
    "shop-7": "shop",
    "shop-8": "shop",
    "shop-9": "shop",
    "ada": "operator",
    "audit": "operator",
}
SECRET = "correct-horse-41"


def file_of(doors: dict[str, int]) -> str:
    """The office's file, with these ports of its doors."""
    hashed = done("openssl", "passwd", "-5", "-salt", "rounds=1000$abc", SECRET).strip()
    text = FILE.replace("{page}", str(DEPLOY / "console/console.html")).replace("{hash}", hashed)
    for name, port in doors.items():
        text = text.replace("{" + name + "}", str(port))
    return text


def made(place: pathlib.Path) -> World:
    """An office that is up, in a folder."""
    first = ports.free(len(DOORS))
    doors = {name: first + at for at, name in enumerate(DOORS)}
    world = World(place, file_of(doors), doors)
    world.command("certificate", "office", "--host", "localhost")
    for name, role in CLIENTS.items():
        world.command("certificate", role, name)
    world.make()
    world.balance()
    return world


@pytest.fixture(scope="package")
def world(tmp_path_factory: pytest.TempPathFactory) -> Iterator[World]:
    """The office that the tests of doors share."""
    one = made(tmp_path_factory.mktemp("office"))
    try:
        yield one
    finally:
        one.end()


@pytest.fixture
def script(world: World) -> Caller:
    """A script on this machine."""
    return Caller(world, world.place / "office.sock")


@pytest.fixture
def at(world: World) -> Callable[..., Caller]:
    """`at("gateways", "pgw-1")`: who asks at a door, with a certificate where it has TLS."""

    def caller(door: str, name: str | None = None) -> Caller:
        if door == "scripts":
            return Caller(world, world.place / "office.sock")
        return Caller(world, world.doors[door], door in ("gateways", "shops", "operators"), name)

    return caller
