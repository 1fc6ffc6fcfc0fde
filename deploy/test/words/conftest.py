"""The office of the tests of words: the doors of a file that names none, over two shards."""
from __future__ import annotations

from collections.abc import Iterator

import pytest
from support import ports
from support.callers import Caller
from support.world import DEPLOY, World

FILE = """
[office]
shards = 2
first-port = {first}
databases = "{place}"
program = "{program}"
owner = ""
moved = "{place}/moved"
clearing = "{place}/clearing"
page = "{page}"
[haproxy]
user = ""
sockets = "{place}"
file = "{place}/haproxy.cfg"
[[door]]
name = "desk"
role = "operator"
at = "127.0.0.1:{desk}"
hosts = ["127.0.0.1:{desk}"]
[[door]]
name = "scripts"
role = "script"
at = "{place}/office.sock"
"""


@pytest.fixture(scope="package")
def world(tmp_path_factory: pytest.TempPathFactory) -> Iterator[World]:
    """Two shards behind HAProxy."""
    desk, page = ports.free(), str(DEPLOY / "console/console.html")
    text = FILE.replace("{desk}", str(desk)).replace("{page}", page)
    one = World(tmp_path_factory.mktemp("words"), text, {"desk": desk})
    one.make(2)
    one.balance()
    try:
        yield one
    finally:
        one.end()


@pytest.fixture
def script(world: World) -> Caller:
    """A script on this machine."""
    return Caller(world, world.place / "office.sock")
