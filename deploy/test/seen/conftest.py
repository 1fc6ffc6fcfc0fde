"""The office of the tests of what is seen: doors with TLS and without, over four shards."""
from __future__ import annotations

import pathlib
from collections.abc import Callable, Iterator

import pytest
from support import ports
from support.callers import Caller
from support.world import World, done

DOORS = ("gateways", "operators", "here", "desk", "measures")
TLS = ("gateways", "operators")
SECRET = "correct-horse-41"
FILE = """
[office]
shards = 4
first-port = {first}
databases = "{place}"
moved = "{place}/moved"
owner = ""
page = ""
clearing = "{place}/clearing"
[haproxy]
user = ""
sockets = "{place}"
log = "{place}/log"
[waits]
request = 2
start = 2
queue = 5
answer = 3
[measures]
port = {exporter}
probe = 2
[keeping]
copies = "{place}/copies"
elsewhere = "{place}/elsewhere"
[tls]
authority = "{place}/authority"
certificate = "{place}/tls/office.pem"
clients = "{place}/tls/clients.pem"
revoked = "{place}/tls/revoked.pem"
[[door]]
name = "gateways"
role = "gateway"
at = "127.0.0.1:{gateways}"
tls = true
hosts = ["localhost:{gateways}"]
[[door]]
name = "operators"
role = "operator"
at = "127.0.0.1:{operators}"
tls = true
hosts = ["localhost:{operators}"]
[[door]]
name = "here"
role = "gateway"
at = "127.0.0.1:{here}"
[[door]]
name = "desk"
role = "operator"
at = "127.0.0.1:{desk}"
hosts = ["127.0.0.1:{desk}"]
[[door]]
name = "scripts"
role = "script"
at = "{place}/office.sock"
[[door]]
name = "measures"
role = "watcher"
at = "127.0.0.1:{measures}"
[[gateway]]
name = "pgw-1"
a-second = 5
[[gateway]]
name = "pgw-old"
[[operator]]
name = "ada"
[[operator]]
name = "audit"
only = "read"
[[operator]]
name = "grace"
password = "{hash}"
"""
CLIENTS = {"pgw-1": "gateway", "pgw-old": "gateway", "ada": "operator", "audit": "operator"}
PAGE = "<!doctype html><title>Office</title><script>1</script><style>a{}</style>"


def made(place: pathlib.Path) -> World:
    """An office that is up, in a folder."""
    (place / "page.html").write_text(PAGE)
    first = ports.free(len(DOORS) + 1)
    doors = {name: first + at for at, name in enumerate(DOORS)}
    hashed = done("openssl", "passwd", "-5", "-salt", "rounds=1000$abc", SECRET).strip()
    text = FILE.replace("{hash}", hashed).replace("{exporter}", str(first + len(DOORS)))
    text = text.replace('page = ""', 'page = "{place}/page.html"')
    for name, port in doors.items():
        text = text.replace("{" + name + "}", str(port))
    world = World(place, text, doors)
    world.command("certificate", "office", "--host", "localhost")
    for name, role in CLIENTS.items():
        world.command("certificate", role, name)
    world.make()
    world.balance()
    return world


@pytest.fixture(scope="package")
def world(tmp_path_factory: pytest.TempPathFactory) -> Iterator[World]:
    """The office that the tests share."""
    one = made(tmp_path_factory.mktemp("seen"))
    try:
        yield one
    finally:
        one.end()


@pytest.fixture
def script(world: World) -> Caller:
    """A script on this machine."""
    return Caller(world, world.place / "office.sock")


@pytest.fixture
def at(world: World) -> Callable[..., Caller]:
    """`at("gateways", "pgw-1")`: who asks at a door, with a certificate where it has TLS."""
    return lambda door, name=None: Caller(world, world.doors[door], door in TLS, name)
