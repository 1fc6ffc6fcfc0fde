"""The shards of an office: their numbers, ports, units and databases, and which one an account
lives in.

Every word that walks over shards calls `of`; `Homes.home` says the shard of an account as HAProxy
does: the file of moved accounts first, then a consistent hash of the account's number over the
shards of the hash. A look-up is logarithmic in the shards."""
from __future__ import annotations

import bisect
import dataclasses
import pathlib

from office.faults import Refused, Unread
from office.settings import Settings

# HAProxy's: points on the ring of a server of weight 1, and the room for points of each server.
POINTS, ROOM = 16, 4096
WORD = 0xFFFFFFFF


@dataclasses.dataclass(frozen=True)
class Shard:
    """One database with one process."""

    number: str  # 01 to 99
    port: int  # of 127.0.0.1, HAProxy's alone
    unit: str
    database: pathlib.Path
    is_hashed: bool  # whether accounts get here by their hash

    def __str__(self) -> str:
        return self.number


def of(settings: Settings) -> list[Shard]:
    """All shards, by their numbers."""
    office = settings.office
    return [
        Shard(
            f"{at:02}",
            office.first_port + at,
            office.unit.format(shard=f"{at:02}"),
            folder(settings, f"{at:02}") / f"{at:02}.db",
            at <= office.shards,
        )
        for at in range(1, office.shards + office.more + 1)
    ]


def folder(settings: Settings, number: str) -> pathlib.Path:
    """Where a shard's database is; with two machines that is the shard's own file system."""
    databases = pathlib.Path(settings.office.databases)
    return databases / number if settings.machines else databases


def named(settings: Settings, number: str) -> Shard:
    """The shard of a number as words have it, `01` or `1`."""
    wanted = number.zfill(2)
    for shard in of(settings):
        if shard.number == wanted:
            return shard
    raise Unread(f"there is no shard {number}: they are 01 to {of(settings)[-1]}, by [office]")


class Homes:
    """Which shard each account lives in."""

    def __init__(self, settings: Settings) -> None:
        self.shards = of(settings)
        self.moved = read_moved(pathlib.Path(settings.office.moved), self.shards)
        hashed = [shard for shard in self.shards if shard.is_hashed]
        ring = sorted(
            (spread(int(shard.number) * ROOM + point), shard.number, shard)
            for shard in hashed
            for point in range(POINTS)
        )
        self.ring = [(key, shard) for key, _, shard in ring]
        self.keys = [key for key, _ in self.ring]

    def home(self, account: str) -> Shard:
        """The shard of an account, whether or not it is open."""
        return self.moved.get(account) or self.hashed(account)

    def hashed(self, account: str) -> Shard:
        """The shard of an account's hash: the nearer of its two neighbours on the ring."""
        key = spread(sum_of(account))
        after = bisect.bisect_left(self.keys, key) % len(self.keys)
        before = after - 1
        way_back = (key - self.keys[before]) & WORD
        way_on = (self.keys[after] - key) & WORD
        return self.ring[before if way_back <= way_on else after][1]


def read_moved(path: pathlib.Path, shards: list[Shard]) -> dict[str, Shard]:
    """The accounts of the file of moved accounts; none without that file."""
    if not path.exists():
        return {}
    numbers = {shard.number: shard for shard in shards}
    moved: dict[str, Shard] = {}
    for at, line in enumerate(path.read_text(encoding="utf-8").splitlines(), 1):
        words = line.split()
        if not words or words[0].startswith("#"):
            continue
        if len(words) != 2 or words[1] not in numbers or words[0] in moved:
            raise Refused(f"{path}: line {at} is no new account and shard: {line!r}")
        moved[words[0]] = numbers[words[1]]
    return moved


def sum_of(account: str) -> int:
    """HAProxy's `sdbm` of a text."""
    made = 0
    for byte in account.encode():
        made = (byte + (made << 6) + (made << 16) - made) & WORD
    return made


def spread(key: int) -> int:
    """HAProxy's `avalanche` of 32 bits."""
    key = (key + 0x7ED55D16 + (key << 12)) & WORD
    key = key ^ 0xC761C23C ^ (key >> 19)
    key = (key + 0x165667B1 + (key << 5)) & WORD
    key = ((key + 0xD3A2646C) ^ (key << 9)) & WORD
    key = (key + 0xFD7046C5 + (key << 3)) & WORD
    key = key ^ 0xB55A4F09 ^ (key >> 16)
    return (key * 3221225473) & WORD
