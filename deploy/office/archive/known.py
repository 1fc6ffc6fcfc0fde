"""Which keys the archives keep, as HAProxy sees it before a request goes to a shard.

A key is an account with a Session-Id or a Reference. A filter of an archive (Bloom's) says of a key that
it surely isn't there, or that it may be: three to six bytes a key, four looks. So what is new goes to its
shard at once, whether or not the archive's service is up, but for 6 in 10,000, which are asked for
first. The folder of `[archive]` known has the filters, an index of those in force, and a file `held-NN`
for each shard whose requests wait for its turn; doors/known.lua looks at it five times a second.

`carry` and `move` call `hold`, `put` and `release`; each is a file that is written whole."""
from __future__ import annotations

import contextlib
import pathlib
import socket
import time
import zlib
from collections.abc import Iterable, Iterator

from office import disk, proxy
from office.archive import past
from office.faults import Refused
from office.settings import Settings
from office.shards import Shard
from office.tables import Database

# Bits a key at least, and looks at them; known.lua has the same.
BITS, PROBES, SPREAD, WORD = 24, 4, 0x9E3779B1, 0xFFFFFFFF
# Seconds for HAProxy to see what was written, and between two looks at it.
SECONDS, EACH = 10.0, 0.02
# Seconds for the service to start.
START = 60.0
DAY = 86_400
SESSIONS = "SELECT account, session AS name, 1 AS kind FROM sessions WHERE touched >= ?"
REFERENCES = "SELECT account, name, kind FROM answers WHERE kind = 2"


class Filter:
    """A filter of keys."""

    def __init__(self, keys: int) -> None:
        self.content = bytearray(max(1024, 1 << (BITS * keys // 8).bit_length()))

    def add(self, account: str, kind: int, name: str) -> None:
        """Adds a key."""
        for place in self.places(account, kind, name):
            self.content[place >> 3] |= 1 << (place & 7)

    def may_have(self, account: str, kind: int, name: str) -> bool:
        """Whether a key may be there."""
        places = self.places(account, kind, name)
        return all(self.content[place >> 3] >> (place & 7) & 1 for place in places)

    def places(self, account: str, kind: int, name: str) -> Iterator[int]:
        """The places of a key's bits."""
        last = 8 * len(self.content) - 1
        sum_of = zlib.crc32(f"{account} {kind} {name}".encode())
        step = (sum_of * SPREAD & WORD) >> 7 | 1
        for turn in range(PROBES):
            yield sum_of + turn * step & last


def of_copy(database: Database) -> Filter:
    """The filter of a copy of a shard, with room for what its shard gets until its turn."""
    made = Filter(int(database.one("SELECT count(*) FROM answers")) * 5 // 4 + 1000)
    for row in database.rows("SELECT DISTINCT account, kind, name FROM answers"):
        made.add(row["account"], row["kind"], row["name"])
    return made


def add_since(made: Filter, database: Database, moment: int) -> None:
    """Adds what a database has got since the last moment of its copy."""
    for query, values in ((SESSIONS, (moment,)), (REFERENCES, ())):
        for row in database.rows(query, *values):
            made.add(row["account"], row["kind"], row["name"])


def put(settings: Settings, name: str, made: Filter) -> None:
    """Puts an archive in force, and sees that HAProxy goes by it. Archives that are too old go."""
    folder = folder_of(settings)
    drop(settings, name)
    disk.write(folder / f"{name}.filter", bytes(made.content))
    oldest = time.time() - DAY * settings.archive.days
    kept = [one for one in named(settings) if past.moment_of(one) >= oldest]
    told(settings, [*kept, name])
    for path in folder.glob("*.filter"):
        if path.stem not in (*kept, name):
            path.unlink()


def drop(settings: Settings, name: str) -> None:
    """Takes an archive out of force."""
    if name in named(settings):
        told(settings, [one for one in named(settings) if one != name])
        (pathlib.Path(settings.archive.known) / f"{name}.filter").unlink(missing_ok=True)


def named(settings: Settings) -> list[str]:
    """The names of the archives in force."""
    path = pathlib.Path(settings.archive.known) / "index"
    return path.read_text(encoding="ascii").split() if path.exists() else []


def told(settings: Settings, names: Iterable[str]) -> None:
    """Writes the index, and waits until HAProxy has read it. An index without a name says that there
    are archives, for statements."""
    text = "".join(f"{name}\n" for name in names) or "\n"
    disk.write(folder_of(settings) / "index", text)
    seen(settings)


def held_of(settings: Settings, shard: Shard) -> pathlib.Path:
    """The file that has the requests of a shard wait."""
    return pathlib.Path(settings.archive.known) / f"held-{shard}"


def is_served(settings: Settings) -> None:
    """Refuses an office whose archive's service doesn't answer: nobody would answer what is repeated."""
    path, unit = settings.archive.socket, "systemctl enable --now office-archive.socket"
    try:
        with socket.socket(socket.AF_UNIX) as peer:
            peer.settimeout(START)
            peer.connect(path)
            peer.sendall(b"GET / HTTP/1.1\r\nHost: archive\r\nOffice-Kept: 1\r\n\r\n")
            said = peer.recv(64).decode("latin-1").partition("\r")[0]
    except OSError as fault:
        raise Refused(f"{path}: {fault.strerror or fault}: `{unit}`") from fault
    if not said.startswith("HTTP/1.1 404"):
        raise Refused(f"{path} answers {said!r}: journalctl --unit office-archive")


def hold(settings: Settings, shard: Shard) -> None:
    """Has each request for a shard wait in HAProxy before it is decided where it goes, and waits until
    none is left of those that came before."""
    if settings.machines:
        return
    folder_of(settings)
    held_of(settings, shard).touch()
    try:
        while True:
            proxy.alone(settings)
            process = proxy.process(settings)
            seen(settings)
            drain(settings, shard)
            # A reload meanwhile leaves what was under way in the process of before.
            if process == proxy.process(settings) and not proxy.others(settings):
                return
    except BaseException:
        release(settings, shard)
        raise


@contextlib.contextmanager
def held(settings: Settings, shard: Shard) -> Iterator[None]:
    """The requests of a shard wait meanwhile."""
    hold(settings, shard)
    try:
        yield
    finally:
        release(settings, shard)


def release(settings: Settings, shard: Shard) -> None:
    """Lets the requests of a shard go on; who may not write there has held none back."""
    if held_of(settings, shard).exists():
        held_of(settings, shard).unlink(missing_ok=True)


def drain(settings: Settings, shard: Shard) -> None:
    """Waits until HAProxy has nothing under way or waiting for a shard. Each of them may wait for its
    turn, for the shard's start and for its answer, and no longer."""
    waits = settings.waits
    end = time.monotonic() + waits.queue + waits.start + waits.answer + 2
    while proxy.process(settings):
        row = proxy.shards_state(settings)[str(shard)]
        if row["qcur"] == row["scur"] == "0":
            return
        if time.monotonic() > end:
            raise Refused(f"shard {shard} has requests under way all the time")
        time.sleep(EACH)


def seen(settings: Settings) -> None:
    """Waits until HAProxy goes by the folder as it is; where it is away it reads it as it starts."""
    wanted, end = state(settings), time.monotonic() + SECONDS
    while proxy.process(settings):
        found = proxy.told(settings, "office known").strip()
        if found == wanted:
            return
        if time.monotonic() > end:
            what = "`office up`" if "Unknown command" in found else f"it reads {found!r}"
            raise Refused(f"HAProxy doesn't go by {settings.archive.known} ({what})")
        time.sleep(EACH)


def state(settings: Settings) -> str:
    """What HAProxy says once it has read the folder."""
    shards = sorted(path.name[5:] for path in pathlib.Path(settings.archive.known).glob("held-*"))
    return f"{' '.join(named(settings))}; held {' '.join(shards)}".strip()


def folder_of(settings: Settings) -> pathlib.Path:
    """The folder, which HAProxy may read."""
    path = pathlib.Path(settings.archive.known)
    path.mkdir(parents=True, exist_ok=True)
    path.chmod(0o755)
    return path
