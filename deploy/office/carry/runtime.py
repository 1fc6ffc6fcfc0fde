"""HAProxy's file of moved accounts while HAProxy runs, and on the disk.

`moving` calls this. At run time an account may be `moving`, for which its requests wait; on the disk it
lives in one shard. A command at HAProxy's socket is a round trip; the file is written whole."""
from __future__ import annotations

import pathlib
from collections.abc import Iterable

from office import disk, proxy
from office.faults import Refused
from office.settings import Settings
from office.shards import Homes

MOVING, GONE = "moving", "Key not found."


def entries(settings: Settings) -> dict[str, str]:
    """The accounts that HAProxy has in the file now, each with its shard or `moving`."""
    told = proxy.told(settings, f"show map {settings.office.moved}")
    rows = [line.split() for line in told.splitlines() if line.startswith("0x")]
    if not rows and "Unknown map" in told:
        path = settings.office.moved
        raise Refused(f"HAProxy doesn't read {path}: make the file, and `office up`")
    return {row[1]: row[2] for row in rows if len(row) == 3}


def put(settings: Settings, account: str, value: str, there: dict[str, str]) -> None:
    """Has HAProxy send an account's requests elsewhere from now on; empty: by its hash."""
    path = settings.office.moved
    if not value:
        command = f"del map {path} {account}" if account in there else ""
    elif account in there:
        command = f"set map {path} {account} {value}"
    else:
        command = f"add map {path} {account} {value}"
    told = proxy.told(settings, command).strip() if command else ""
    # A reload since `there` was read has taken an entry away that the file doesn't have.
    if told and (value or told != GONE):
        raise Refused(f"haproxy: {command}: {told}")


def settle(settings: Settings, accounts: Iterable[str]) -> None:
    """Has HAProxy send the requests of accounts where the file on the disk says."""
    there, moved = entries(settings), Homes(settings).moved
    for account in accounts:
        shard = moved.get(account)
        put(settings, account, str(shard) if shard else "", there)


def write(settings: Settings, accounts: Iterable[str], target: str) -> None:
    """Writes the file with accounts in another shard; those whose hash leads there need no line."""
    homes, path = Homes(settings), pathlib.Path(settings.office.moved)
    those = set(accounts)
    lines = path.read_text(encoding="utf-8").splitlines() if path.exists() else []
    kept = [line for line in lines if not line.split() or line.split()[0] not in those]
    kept += [f"{one} {target}" for one in sorted(those) if str(homes.hashed(one)) != target]
    disk.write(path, "".join(f"{line}\n" for line in kept))
