"""Redeems a voucher for an account, whichever shard its code is in.

The word `redeem` and the agent call this. A code of the account's own shard is one request. Any other takes two:
it is redeemed onto the clearing account of its shard, and then the account is credited the same
amount, until the same end and of the same scope. Each has a reference that names the code, so that
both may be made again: stopped anywhere and made again, the account is credited once. What it costs
is a request a shard until the code is found."""
from __future__ import annotations

import pathlib
from collections.abc import Iterable

from office.client import Answer, Client
from office.faults import Refused
from office.settings import Settings
from office.tables import opened

UNKNOWN = {"Refusal": "O3"}
BUCKET = "SELECT credited, ends, scope FROM buckets WHERE account = ? AND number = ?"


def redeem(
    client: Client, code: str, account: str, clearings: Iterable[str], reference: str = ""
) -> Answer:
    """The answer that says whether the account has the amount of the code: a `Bucket`, or a
    refusal. The reference is that of a code of the account's own shard; the clearing accounts are
    asked for where it is in another one."""
    answer = redeemed(client, code, account, reference or f"redeem-{code}")
    if answer.body != UNKNOWN:
        return answer
    for clearing in clearings:
        answer = redeemed(client, code, clearing, f"voucher-{code}-{account}")
        if "Bucket" in answer.body:
            return credited(client, code, account, clearing, answer)
        if answer.body != UNKNOWN:
            return answer
    return answer


def redeemed(client: Client, code: str, account: str, reference: str) -> Answer:
    """The answer to the redemption of a code for an account of its shard."""
    body = {"Subscription-Id-Data": account, "Reference": reference}
    return client.ask("POST", f"/vouchers/{code}/redeem", body)


def credited(client: Client, code: str, account: str, clearing: str, cleared: Answer) -> Answer:
    """The answer to a credit of what the code brought to a clearing account."""
    amount, until, scope = brought(client, clearing, cleared)
    body = {"Amount": amount, "Until": until, "Reference": f"voucher-{code}"}
    if scope is not None:
        body["Scope"] = scope
    return client.ask("POST", f"/accounts/{account}/credits", body)


def brought(client: Client, clearing: str, cleared: Answer) -> tuple[int, int, int | None]:
    """Amount, end and scope of the bucket of a redemption. One of before a carry has its number in the
    archive, where it is as it was made."""
    number = cleared.body["Bucket"]
    if cleared.archive:
        path = pathlib.Path(client.settings.keeping.archive) / f"{cleared.archive}.db"
        with opened(path, is_still=True) as database:
            return tuple(next(database.rows(BUCKET, clearing, number)).values())  # type: ignore[return-value]
    balance = client.ask("GET", f"/accounts/{clearing}").body
    bucket = next(one for one in balance["Buckets"] if one["Number"] == number)
    return bucket["Credited"], bucket["Until"], bucket.get("Scope")


def clearings(settings: Settings) -> list[str]:
    """The clearing accounts of the office's file, one of each shard."""
    path = pathlib.Path(settings.office.clearing)
    try:
        return path.read_text(encoding="utf-8").split()
    except OSError as fault:
        raise Refused(f"{path}: {fault.strerror}: `office clearing` makes it") from fault
