"""What other shards did with codes of a copy, or for its accounts, since the copy was made.

`office restore` calls `again` over a copy that is served on the spare port. A code of the copy that was
redeemed since for an account of another shard would be spent twice; what codes of other shards brought
to its own accounts since is missing. Both are asked for again, by the requests of `redemption` under
the same references, so that whatever was done already gets its first answer. It costs a walk over the
operators' commands that each shard keeps."""
from __future__ import annotations

import dataclasses
import json
import pathlib
import re
from collections.abc import Iterable, Iterator

from office import redemption, shards, vouchers
from office.client import Body
from office.faults import Refused
from office.settings import Settings
from office.shards import Homes, Shard
from office.spare import Spare
from office.tables import Database, Row, opened

# The references of `redemption`: of a code on a clearing account, and of its credit elsewhere.
CLEARED, CREDITED = re.compile(r"voucher-(\d{12})-(\d{1,15})"), re.compile(r"voucher-(\d{12})")
KEPT = "SELECT account, name, answer FROM answers WHERE kind = 2 AND name LIKE 'voucher-%'"
BUCKET = "SELECT credited, ends, scope FROM buckets WHERE account = ? AND number = ?"


@dataclasses.dataclass(frozen=True)
class Used:
    """A code that was redeemed for an account of another shard than its own. `body` is the credit
    that is owed for it, as its own shard has it; none where the account's shard tells of it."""

    code: str
    account: str
    body: Body | None = None


def of_database(database: Database) -> Iterator[Used]:
    """What a database knows of codes that went from one shard to another."""
    for row in database.rows(KEPT):
        if told := CLEARED.fullmatch(row["name"]):
            yield Used(told[1], told[2], owed(database, told[1], row))
        elif told := CREDITED.fullmatch(row["name"]):
            yield Used(told[1], row["account"])


def owed(database: Database, code: str, row: Row) -> Body:
    """The credit for what a code brought to a clearing account."""
    number = json.loads(row["answer"])["Bucket"]
    bucket = next(database.rows(BUCKET, row["account"], number))
    body = {"Amount": bucket["credited"], "Until": bucket["ends"], "Reference": f"voucher-{code}"}
    return body if bucket["scope"] is None else body | {"Scope": bucket["scope"]}


def of_others(copies: Iterable[pathlib.Path], shard: Shard) -> list[Used]:
    """What the other shards' copies and archives, which are named by their shards, know of such codes,
    each once."""
    found: dict[tuple[str, str, bool], Used] = {}
    for copy in copies:
        if copy.stem.partition("-")[0] != str(shard):
            with opened(copy, is_still=True) as database:
                for one in of_database(database):
                    found.setdefault((one.code, one.account, one.body is None), one)
    return list(found.values())


def again(
    settings: Settings,
    spare: Spare,
    shard: Shard,
    copy: pathlib.Path,
    used: list[Used],
    archives: Iterable[pathlib.Path],
) -> Iterator[str]:
    """Does again over the copy what codes did since; a line for each that had to be. The archives are
    the shard's own of before the copy: what they have as credited isn't missing, nor what an account
    was credited elsewhere before it moved."""
    homes = shards.Homes(settings)
    with opened(copy) as database:
        spent = vouchers.there(database, {one.code for one in used if one.body is None})
        have = names(database) | {
            (one.account, f"voucher-{one.code}") for one in used if one.body is None
        }
    for path in archives:
        with opened(path, is_still=True) as database:
            have |= names(database)
    for one in used:
        if one.body is None and one.code in spent and not spent[one.code]:
            yield cleared(spare, clearing_of(settings, homes, shard), one)
        elif one.body and homes.home(one.account) == shard:
            if (one.account, f"voucher-{one.code}") not in have:
                yield credited(spare, one, one.body)


def names(database: Database) -> set[tuple[str, str]]:
    """The accounts of a database with the references of their vouchers."""
    return {(row["account"], row["name"]) for row in database.rows(KEPT)}


def cleared(spare: Spare, clearing: str, one: Used) -> str:
    """Redeems a code of the copy for the account of another shard that has its money."""
    spare.ask("PUT", f"/accounts/{clearing}")
    body = {"Subscription-Id-Data": clearing, "Reference": f"voucher-{one.code}-{one.account}"}
    answer = spare.ask("POST", f"/vouchers/{one.code}/redeem", body)
    if "Bucket" not in answer:
        raise Refused(f"{one.code} can't be redeemed again for {one.account}: {json.dumps(answer)}")
    return f"again {one.code} is spent for {one.account}"


def credited(spare: Spare, one: Used, body: Body) -> str:
    """Credits an account of the copy what a code of another shard brought it."""
    answer = spare.ask("POST", f"/accounts/{one.account}/credits", body)
    told = "is credited to" if "Bucket" in answer else f"{json.dumps(answer)}, owed to"
    return f"again {one.code} {told} {one.account}"


def clearing_of(settings: Settings, homes: Homes, shard: Shard) -> str:
    """The clearing account of a shard."""
    for account in redemption.clearings(settings):
        if homes.home(account) == shard:
            return account
    raise Refused(f"no clearing account lives in shard {shard}: `office clearing --write`")
