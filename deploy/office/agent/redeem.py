"""A voucher redeemed in one request, whichever shard its code is in (`redemption`).

A code of the account's own shard is redeemed there under the caller's reference. Any other goes over
the clearing account of its shard, under references of the code's own, so that the same request, made
again after a stop anywhere, credits once. It costs a request a shard until the code is found, and two
more."""
from __future__ import annotations

import re
import time
from collections.abc import Iterator

from office import redemption, shards
from office.agent.asked import Asked, Body, Office
from office.agent.references import References
from office.client import Client
from office.faults import TurnedAway, Unanswered, Unread
from office.settings import Settings

FORMS = {
    "Account": ("[0-9]{1,15}", "1 to 15 digits"),
    "Code": ("[0-9]{12}", "12 digits"),
    "Reference": ("(?!voucher-)[!-~]{1,64}", "1 to 64 printable bytes that don't begin voucher-"),
}


def redeem(office: Office, asked: Asked) -> Body:
    """The answer that says whether the account has the amount: a `Bucket`, or a refusal."""
    told = asked.object(*FORMS)
    for name, (form, said) in FORMS.items():
        if not re.fullmatch(form, told[name]):
            raise Unread(f"{name} is {said}, not {told[name]!r}")
    account, code, reference = (told[name] for name in FORMS)
    with References(office.settings.agent.redeemed) as references:
        refusal = references.begin(account, code, reference)
        if refusal:
            return {"as_of": time.time(), "account": account, "Refusal": refusal}
        try:
            with Client(office.settings) as client:
                clearings = lazily(office.settings)
                answer = redemption.redeem(client, code, account, clearings, reference)
        except TurnedAway as fault:
            # The code may be spent by now.
            raise Unanswered(str(fault)) from fault
        references.end(account, reference, "Bucket" in answer.body)
    shard = shards.Homes(office.settings).home(account)
    office.kept.drop(shard)
    return {"as_of": time.time(), "account": account, "shard": shard.number} | answer.body


def lazily(settings: Settings) -> Iterator[str]:
    """The clearing accounts, once one is asked for: an office without vouchers of other shards has
    none."""
    yield from redemption.clearings(settings)
