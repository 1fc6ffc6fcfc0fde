"""The examples of a gateway and of a shop behind the doors of an office of real parts: HAProxy,
TLS, four shards, one of which is killed.

To make the office takes some 5 seconds, a call some 0.5, and each wait of a gateway its own."""
from __future__ import annotations

import csv
import io
import json
import pathlib
import re
import subprocess
import sys
import time
from collections.abc import Iterator

import pytest
from support import ports
from support.callers import Caller
from support.waiting import until
from support.world import TOP, World, done, program, ran

EXAMPLES = TOP / "examples"
DOORS = ("gateways", "shops", "operators", "here")
FILE = """
[office]
first-port = {first}
databases = "{place}"
moved = "{place}/moved"
owner = ""
page = "{top}/deploy/console/console.html"
clearing = "{place}/clearing"
[haproxy]
user = ""
sockets = "{place}"
[tls]
authority = "{place}/authority"
certificate = "{place}/tls/office.pem"
clients = "{place}/tls/clients.pem"
revoked = "{place}/tls/revoked.pem"
[[door]]
name = "gateways"
role = "gateway"
at = "127.0.0.1:{gateways}"
tls = true
hosts = ["localhost:{gateways}"]
[[door]]
name = "shops"
role = "shop"
at = "127.0.0.1:{shops}"
tls = true
hosts = ["localhost:{shops}"]
[[door]]
name = "operators"
role = "operator"
at = "127.0.0.1:{operators}"
tls = true
hosts = ["localhost:{operators}"]
[[door]]
name = "here"
role = "gateway"
at = "127.0.0.1:{here}"
hosts = ["127.0.0.1:{here}"]
[[gateway]]
name = "pgw-1"
[[gateway]]
name = "pgw-slow"
a-second = 1
[[shop]]
name = "shop-7"
[[operator]]
name = "ada"
"""
CLIENTS = {
    "pgw-1": "gateway",
    "pgw-slow": "gateway",
    "pgw-late": "gateway",
    "shop-7": "shop",
    "ada": "operator",
}
LATE = '[[gateway]]\nname = "pgw-late"\n'
# The seconds of a call, and the blocks of a minute that they start.
CALL, BLOCKS = 1700, 29


@pytest.fixture(scope="module")
def world(tmp_path_factory: pytest.TempPathFactory) -> Iterator[World]:
    """An office that is up, whose last shard has the vouchers of the examples."""
    place, first = tmp_path_factory.mktemp("office"), ports.free(len(DOORS))
    doors = {name: first + at for at, name in enumerate(DOORS)}
    text = FILE.replace("{top}", str(TOP))
    for name, port in doors.items():
        text = text.replace("{" + name + "}", str(port))
    made = World(place, text, doors)
    try:
        made.command("certificate", "office", "--host", "localhost")
        for name, role in CLIENTS.items():
            made.command("certificate", role, name)
        made.make()
        made.kill(4)
        done(program(), "import", made.database(4), EXAMPLES / "vouchers.csv")
        made.start(4)
        made.balance()
        yield made
    finally:
        made.end()


def keys(world: World, name: str) -> list[str]:
    """The words of a client with that certificate."""
    folder = world.place / "authority"
    own = ["--cert", f"{folder}/{name}.crt", "--key", f"{folder}/{name}.key"]
    return ["--cacert", f"{folder}/clients.pem", *own]


def call_of(world: World, account: str, name: str) -> list[str]:
    """The words of a call; without a name at the door of this machine."""
    place = f"https://localhost:{world.doors['gateways']}"
    place = place if name else f"http://127.0.0.1:{world.doors['here']}"
    call = [account, f"call-{account}", str(CALL), str(int(time.time()))]
    gateway = [sys.executable, str(EXAMPLES / "gateway/gateway.py"), place, *call]
    return [*gateway, *(keys(world, name) if name else [])]


def opened(world: World, account: str) -> int:
    """Opens an account and credits it; its shard."""
    operator = Caller(world, world.doors["operators"], True, "ada")
    operator.ask("PUT", f"/accounts/{account}")
    body = {"Amount": 10_000_000, "Reference": "cash-1"}
    answer = operator.ask("POST", f"/accounts/{account}/credits", body)
    assert answer.body == {"Bucket": 1, "Result-Code": 2001}
    return int(answer.shard)


def blocks(world: World, account: str) -> int:
    """The blocks that were charged to an account in all."""
    operator = Caller(world, world.doors["operators"], True, "ada")
    month = time.strftime("%Y%m", time.gmtime())
    told = operator.ask("GET", f"/accounts/{account}/statement/{month}").text
    found = re.search(r"^ +TOTAL +(\d+)", told, re.M)
    assert found, told
    return int(found[1])


def statuses(world: World, account: str) -> list[int]:
    """The statuses of all answers to gateways' requests of an account, as the log has them."""
    return [
        int(line["status"])
        for line in world.lines()
        if line.get("account") == account and line.get("what") == "POST /ccr"
    ]


@pytest.mark.parametrize(("account", "name"), [("101", "pgw-1"), ("102", "")])
def test_a_call(world: World, account: str, name: str) -> None:
    opened(world, account)
    ended = ran(*call_of(world, account, name))
    assert (ended.returncode, ended.stderr) == (0, "")
    assert blocks(world, account) == BLOCKS


def in_hands(world: World, shard: int) -> bool:
    """Whether a shard has a request of HAProxy's."""
    rows = csv.DictReader(io.StringIO(world.admin("show stat").lstrip("# ")))
    return any(row["svname"] == f"{shard:02}" and int(row["scur"]) > 0 for row in rows)


def test_a_shard_that_is_killed_with_a_request_in_its_hands(world: World) -> None:
    shard = opened(world, "103")
    with world.still(shard):
        gateway = subprocess.Popen(call_of(world, "103", "pgw-1"), stderr=subprocess.PIPE)
        until(lambda: in_hands(world, shard), "a request in the shard's hands")
        world.kill(shard)
    world.start(shard)
    _, said = gateway.communicate(timeout=60)
    assert (gateway.returncode, said) == (0, b"")
    assert blocks(world, "103") == BLOCKS
    assert 502 in statuses(world, "103")


def test_a_gateway_that_asks_too_often(world: World) -> None:
    opened(world, "104")
    ended = ran(*call_of(world, "104", "pgw-slow"))
    assert (ended.returncode, ended.stderr) == (0, "")
    assert blocks(world, "104") == BLOCKS
    assert 429 in statuses(world, "104")


def test_a_gateway_that_is_named_late(world: World) -> None:
    opened(world, "105")
    gateway = subprocess.Popen(call_of(world, "105", "pgw-late"), stderr=subprocess.PIPE)
    until(lambda: 403 in statuses(world, "105"), "a refusal of the door")
    world.write(world.text + LATE)
    world.reload()
    _, said = gateway.communicate(timeout=60)
    assert (gateway.returncode, said) == (0, b"")
    assert blocks(world, "105") == BLOCKS


def shop_lines(world: World) -> str:
    """The lines of examples/shop that sell, between its server's and the end."""
    lines = (EXAMPLES / "shop/run").read_text().split("# Two subscribers")[1].split("\nwait\n")[0]
    shop, operator = (f"https://localhost:{world.doors[name]}" for name in ("shops", "operators"))
    by_shop, by_operator = (" ".join(keys(world, name)) for name in ("shop-7", "ada"))
    return f"""set -euo pipefail
shop={shop} operator={operator} vouchers={shop}/vouchers
ask() {{
    local keys="{by_shop}"
    [[ "$*" != *$operator* ]] || keys="{by_operator}"
    curl -sS --fail --retry 5 --retry-all-errors -w '\\n' $keys "$@"
}}
#{lines}
"""


def test_a_shop(world: World, tmp_path: pathlib.Path) -> None:
    (tmp_path / "run").write_text(shop_lines(world))
    ended = ran("bash", tmp_path / "run")
    assert (ended.returncode, ended.stderr) == (0, "")
    told = [json.loads(line) for line in ended.stdout.splitlines()]
    is_done, bought = {"Result-Code": 2001}, {"Bucket": 1, "Result-Code": 2001}
    assert told[:4] == [is_done, is_done, bought, bought]
    # A code of another account's shard isn't known in the second one's.
    assert told[4] in ({"Refusal": "O3"}, {"Refusal": "O4"}) and told[5] == {"Refusal": "O3"}
    assert told[6] == bought
    credited = [[bucket["Credited"] for bucket in one["Buckets"]] for one in told[7:]]
    assert credited == [[5_000_000], [1_000_000]]


def test_a_shop_that_asks_what_an_operator_may(world: World) -> None:
    door = f"https://localhost:{world.doors['shops']}/accounts/106"
    ended = ran("curl", "-sS", "--fail", *keys(world, "shop-7"), "-X", "PUT", "-d", "", door)
    assert ended.returncode == 22 and "403" in ended.stderr
