"""An office whose clock stands, with a month of an account's charges, for the tests of its page."""
from __future__ import annotations

import json
import pathlib
import random
from collections.abc import Callable
from typing import Any

from office import settings, shards
from support import ports
from support.callers import Caller, debit
from support.world import BOOK, DEPLOY, World, done, program

SHARDS, DOORS = 2, ("desk", "counter", "operators")
# 2026-01-29 14:03:00, and the first day's midnight. A month more ends the sessions.
MOMENT, MONTH, BEGIN, DAY = 1769695380, "202601", 1767225600, 86400
ACCOUNT, BARRED, EMPTY, NOBODY = "49151", "49152", "49153", "777000"
# An account whose last call cost more than it had.
POOR = "49154"
CODES = ("123456789012", "123456789013", "123456789014", "123456789015", "123456789016")
# Codes of another shard than the first account's.
FAR = tuple(f"{223_456_789_012 + at}" for at in range(20))
FILE = """
[office]
shards = 2
first-port = {first}
databases = "{place}"
program = "{program}"
owner = ""
moved = "{place}/moved"
clearing = "{place}/clearing"
page = "{page}"
[haproxy]
user = ""
sockets = "{place}"
log = "{place}/log"
[waits]
request = 5
start = 2
queue = 4
answer = 6
[agent]
socket = "{place}/agent.sock"
redeemed = "{place}/redeemed.db"
[keeping]
locks = "{place}/locks"
archive = "{place}/archive"
copies = "{place}/copies"
[tls]
authority = "{place}/authority"
certificate = "{place}/tls/office.pem"
clients = "{place}/tls/clients.pem"
revoked = "{place}/tls/revoked.pem"
[[door]]
name = "desk"
role = "operator"
at = "127.0.0.1:{desk}"
hosts = ["127.0.0.1:{desk}"]
[[door]]
name = "counter"
role = "shop"
at = "127.0.0.1:{counter}"
hosts = ["127.0.0.1:{counter}"]
[[door]]
name = "operators"
role = "operator"
at = "127.0.0.1:{operators}"
tls = true
hosts = ["localhost:{operators}"]
[[door]]
name = "scripts"
role = "script"
at = "{place}/office.sock"
[[operator]]
name = "ada"
password = "{hash}"
[[operator]]
name = "rosa"
only = "read"
password = "{hash}"
"""
SECRET = "correct-horse-41"


def made(
    place: pathlib.Path,
    moment: int | None = MOMENT,
    fill: Callable[[World], None] | None = None,
    text: str = FILE,
) -> World:
    """An office that is up, in a folder: its clock stands at a moment or runs, its databases are filled."""
    first = ports.free(len(DOORS))
    doors = {name: first + at for at, name in enumerate(DOORS)}
    hashed = done("openssl", "passwd", "-5", "-salt", "rounds=1000$abc", SECRET).strip()
    text = text.replace("{page}", str(DEPLOY / "console/console.html")).replace("{hash}", hashed)
    for name, port in doors.items():
        text = text.replace("{" + name + "}", str(port))
    world = World(place, text, doors)
    world.moment = moment
    world.command("certificate", "office", "--host", "localhost")
    for at in range(1, SHARDS + 1):
        done(program(), "init", world.database(at), BOOK)
    (fill or history)(world)
    for at in range(1, SHARDS + 1):
        world.start(at)
    (place / "clearing").touch()
    world.balance()
    world.command("clearing", "--write")
    return world


def home(world: World, account: str) -> int:
    """The number of an account's shard."""
    return int(shards.Homes(settings.read(world.file)).home(account).number)


def history(world: World) -> None:
    """Accounts: one with money, allowances and four weeks of charges, a barred one, an empty one, a poor
    one; and vouchers in the shard of the first."""
    database = world.database(home(world, ACCOUNT))
    done(program(), "open", database, ACCOUNT, "--at", BEGIN)
    credit = (program(), "credit", database, ACCOUNT)
    done(*credit, 12_000_000, "cash-1", "--at", BEGIN, "--until", BEGIN + 20 * DAY)
    done(*credit, 20_000_000, "cash-2", "--at", BEGIN)
    done(*credit, 5_000_000, "data", "--at", BEGIN, "--scope", 20, "--until", MOMENT + 9 * DAY)
    allow = (program(), "allow", database, ACCOUNT)
    done(*allow, 60, "bundle", "--scope", 10, "--until", BEGIN + 24 * DAY, "--at", BEGIN)
    done(*allow, 200, "more", "--scope", 30, "--until", MOMENT + 2 * DAY, "--at", BEGIN)
    replayed(database, requests())
    here = home(world, ACCOUNT)
    imported(world, here, CODES)
    imported(world, 1 + here % SHARDS, FAR)
    for account in (BARRED, EMPTY):
        place = world.database(home(world, account))
        done(program(), "open", place, account, "--at", BEGIN)
    done(program(), "bar", world.database(home(world, BARRED)), BARRED, "--at", BEGIN)
    poor(world, BEGIN, MOMENT - DAY)


def poor(world: World, begin: int, moment: int) -> None:
    """An account whose call of an hour had money for some minutes."""
    database = world.database(home(world, POOR))
    done(program(), "open", database, POOR, "--at", begin)
    done(program(), "credit", database, POOR, 300_000, "cash-2", "--at", begin)
    asked = (initial(POOR, "long"), last(POOR, "long", 3600))
    replayed(database, [f"{moment} {json.dumps(one)}\n" for one in asked])


def replayed(database: pathlib.Path, lines: list[str]) -> None:
    """Lines are asked of a database that isn't served."""
    path = database.with_suffix(".in")
    path.write_text("".join(lines))
    done(program(), "replay", database, path)


def initial(account: str, session: str, seconds: int = 60) -> dict[str, Any]:
    """A request that opens a session."""
    asked = debit(account, session, seconds) | {"CC-Request-Type": 1}
    del asked["Requested-Action"]
    return asked


def last(account: str, session: str, seconds: int) -> dict[str, Any]:
    """A request that ends a session, with what was used."""
    service = {"Rating-Group": 10, "Used-Service-Unit": [{"CC-Time": seconds}]}
    told = initial(account, session) | {"CC-Request-Type": 3, "CC-Request-Number": 1}
    return told | {"Multiple-Services-Credit-Control": [service]}


def imported(world: World, at: int, codes: tuple[str, ...], moment: int = MOMENT - DAY) -> None:
    """Vouchers of 5.00 are in a shard that isn't served."""
    vouchers = world.place / "vouchers.csv"
    rows = "".join(f"{code},5000000,30,\n" for code in codes)
    vouchers.write_text("code,amount,days,scope\n" + rows)
    done(program(), "import", world.database(at), vouchers, "--at", moment)


KINDS = ((10, "CC-Time", 1500), (20, "CC-Total-Octets", 90_000_000))
EVENTS = (30, "CC-Service-Specific-Units", 3)


def requests() -> list[str]:
    """Debits on most days, and a session that is open."""
    chance, lines, moment = random.Random(4), [], BEGIN
    for day in range(28):
        for at in range(chance.choice((0, 1, 1, 2, 3, 5))):
            begin = BEGIN + day * DAY + (8 + at * 2) * 3600
            moment = max(moment + 1, begin + chance.randint(0, 3000))
            group, unit, most = chance.choice((*KINDS, KINDS[0], EVENTS))
            body = debit(ACCOUNT, f"d{day}-{at}")
            lines.append(line(moment, body, group, {unit: chance.randint(1, most)}))
    lines.append(line(MOMENT - 600, initial(ACCOUNT, "voice-1"), 10, {"CC-Time": 600}))
    return lines


def line(moment: int, body: dict[str, Any], group: int, units: dict[str, int]) -> str:
    """A dated line of a request for units of a group."""
    service = {"Rating-Group": group, "Requested-Service-Unit": units}
    return f"{moment} {json.dumps(body | {'Multiple-Services-Credit-Control': [service]})}\n"


def script(world: World) -> Caller:
    """A script on this machine."""
    return Caller(world, world.place / "office.sock")


def balance(world: World, account: str = ACCOUNT) -> Any:
    """An account's balance by JSON."""
    return script(world).ask("GET", f"/accounts/{account}").body


def charges(world: World, account: str = ACCOUNT, month: str = MONTH) -> list[list[int]]:
    """The lines of an account's charges of a month, by its statement's text."""
    text = script(world).ask("GET", f"/accounts/{account}/statement/{month}").text
    lines = [one.split() for one in text.splitlines()[2:]]
    end = next(at for at, words in enumerate(lines) if words[0] == "TOTAL")
    return [[int(word) for word in words] for words in lines[:end]]
