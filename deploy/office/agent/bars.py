"""An account is barred, or its bar is lifted: the words `bar` and `unbar` for one account.

The account's shard is stopped and started for it; the answer says how long its requests waited.
Killed anywhere, -9 as well, the agent leaves no shard stopped (`alone`), and the same again does what
is left."""
from __future__ import annotations

import json
import time

from office import operate, shards
from office.agent.asked import Asked, Body, Office
from office.alone import alone
from office.client import Client
from office.faults import Refused
from office.operate import Found


def bar(office: Office, asked: Asked, number: str) -> Body:
    """Bars an account."""
    return changed(office, asked, number, "bar", True)


def unbar(office: Office, asked: Asked, number: str) -> Body:
    """Lifts a bar."""
    return changed(office, asked, number, "unbar", False)


def changed(office: Office, asked: Asked, number: str, word: str, becomes: bool) -> Body:
    """What became of the word, one after another in a shard; a refusal of the program is its own
    answer."""
    home = shards.Homes(office.settings).home(number)
    with office.pauses[home.number]:
        return one(office, asked, number, word, becomes)


def one(office: Office, asked: Asked, number: str, word: str, becomes: bool) -> Body:
    """The same, while no other is under way."""
    with Client(office.settings) as client:
        found = operate.find(office.settings, client, number)
    if not isinstance(found, Found):
        return {"as_of": now(), "account": number} | found.body
    answer: Body = {"account": number, "shard": found.shard.number, "barred": becomes}
    if found.is_barred == becomes:
        return answer | {"as_of": now(), "changed": False, "waited": 0.0, "Result-Code": 2001}
    operate.is_now(found.shard, found.moment)
    told, waited = carried_out(office, asked, found, word)
    office.kept.drop(found.shard)
    if told != operate.DONE:
        raise Refused(f"shard {found.shard}: {told}")
    answer |= json.loads(told)
    return answer | {"as_of": now(), "changed": True, "waited": waited}


def carried_out(office: Office, asked: Asked, found: Found, word: str) -> tuple[str, float]:
    """What the program says, and the seconds that requests waited."""
    settings, shard = office.settings, found.shard
    if not shard.database.is_file():
        raise Refused(f"{shard.database} isn't there: shard {shard} isn't on this machine")
    with alone(settings, shard) as pause:
        operate.is_now(shard, operate.last_moment(shard))
        by = f"{asked.who} by the agent"
        told = operate.carried_out(settings, shard, word, found.account, by)
    return told, round(pause.seconds, 3)


def now() -> float:
    """The machine's clock."""
    return round(time.time(), 3)
