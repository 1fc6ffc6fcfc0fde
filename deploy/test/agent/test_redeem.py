"""A voucher of any shard redeemed in one request, stopped at each of its steps and asked again."""
from __future__ import annotations

import pathlib
from collections.abc import Iterator
from typing import Any

import pytest

from agent.relay import Relay
from agent.running import OF_FIRST, OF_LAST, Agent
from support.callers import Answer, Caller, debit, opened
from support.world import SHARDS

CODES, FIRST = iter(OF_LAST), iter(OF_FIRST)
# Its requests, of a code of the last shard: the own one, a clearing account of each, balance, credit.
STEPS = 1 + SHARDS + 2


def at_home(agent: Agent, shard: str, first: int) -> str:
    """An open account of this shard, from a number on."""
    numbers = map(str, range(first, first + 1000))
    return opened(agent.script(), next(one for one in numbers if agent.home(one) == shard))


def redeem(caller: Caller, account: str, code: str, reference: str) -> Answer:
    """The agent's answer."""
    body = {"Account": account, "Code": code, "Reference": reference}
    return caller.patient(90).ask("POST", "/office/agent/redeem", body)


def buckets(script: Caller, account: str) -> list[tuple[int, int | None]]:
    """What an account's buckets were credited, with their scope."""
    told = script.ask("GET", f"/accounts/{account}").body["Buckets"]
    return [(one["Credited"], one.get("Scope")) for one in told]


def test_a_code_of_another_shard(agent: Agent, ada: Caller, script: Caller) -> None:
    account, code = at_home(agent, "01", 60000), next(CODES)
    told = redeem(ada, account, code, "v1")
    wanted = {"account": account, "shard": "01", "Bucket": 1, "Result-Code": 2001}
    assert (told.status, told.body) == (200, wanted | {"as_of": told.body["as_of"]})
    assert buckets(script, account) == [(5_000_000, None)]
    script.ask("POST", "/ccr", debit(account, "used"))
    assert redeem(ada, account, code, "v1").body["Bucket"] == 1
    assert len(buckets(script, account)) == 1


def test_its_scope_and_its_end_come_with_it(agent: Agent, ada: Caller, script: Caller) -> None:
    own, other = at_home(agent, "04", 60000), at_home(agent, "01", 60100)
    codes = [next(CODES) for _ in range(3)][-2:]
    codes.sort(key=lambda code: int(code) % 2)
    assert "Bucket" in redeem(ada, other, codes[1], "v2").body
    assert buckets(script, other) == [(5_000_000, 10)]
    assert "Bucket" in redeem(ada, own, codes[0], "v2").body
    ends = [
        script.ask("GET", f"/accounts/{one}").body["Buckets"][0]["Until"] for one in (own, other)
    ]
    assert ends[0] == ends[1]


def test_a_code_of_its_own_shard_takes_one_request(
    agent: Agent, ada: Caller, script: Caller
) -> None:
    account, code = at_home(agent, "01", 60200), next(FIRST)
    assert redeem(ada, account, code, "mine").body["Bucket"] == 1
    # It is the program's own redemption under that reference: asked there, it has its answer.
    body = {"Subscription-Id-Data": account, "Reference": "mine"}
    assert script.ask("POST", f"/vouchers/{code}/redeem", body).body["Bucket"] == 1
    assert redeem(ada, account, code, "mine").body["Bucket"] == 1
    assert redeem(ada, account, code, "other").body["Refusal"] == "O4"
    assert len(buckets(script, account)) == 1


@pytest.mark.parametrize("door, name", [("shops", "shop-8"), ("counter", None)])
def test_a_shop_redeems_a_code_of_another_shard(
    agent: Agent, script: Caller, door: str, name: str | None
) -> None:
    shop, code = agent.at(door, name), next(CODES)
    account = at_home(agent, "01", 65000 + 100 * (name is None))
    told = redeem(shop, account, code, "sale-1")
    assert told.status == 200 and "office-shard" not in told.fields
    wanted = {"account": account, "Bucket": 1, "Result-Code": 2001}
    assert told.body == wanted | {"as_of": told.body["as_of"]}
    scope = 10 if int(code) % 2 else None
    assert buckets(script, account) == [(5_000_000, scope)]
    assert redeem(shop, account, code, "sale-1").body["Bucket"] == 1
    assert redeem(shop, account, code, "sale-2").body["Refusal"] == "O4"
    assert len(buckets(script, account)) == 1
    line = agent.world.line(told.fields["x-request-id"])
    wanted = {"who": name or "counter", "account": account, "reference": "sale-1", "code": "2001"}
    assert {each: line[each] for each in wanted} == wanted
    assert agent.line(told.fields["x-request-id"])["shard"] == "01"


def test_a_shop_isnt_told_what_is_inside(agent: Agent, shop: Caller, ada: Caller) -> None:
    """A fault's sentence is the operator's; the shop is told what it may do."""
    path = agent.world.place / "clearing"
    account, code = at_home(agent, "01", 65200), next(CODES)
    path.rename(path.with_suffix(".away"))
    try:
        told = redeem(shop, account, code, "v1")
        assert told.status == 409
        assert told.body["fault"] == "the office can't redeem it now; its log says why"
        assert str(path) in redeem(ada, account, code, "v1").body["fault"]
        line = agent.line(told.fields["x-request-id"])
        assert str(path) in line["fault"]
    finally:
        path.with_suffix(".away").rename(path)
    assert redeem(shop, account, code, "v1").body["Bucket"] == 1


def test_a_shop_that_guesses_codes(agent: Agent, ada: Caller, script: Caller) -> None:
    """Wrong codes count by either way, and an operator's don't."""
    shop, account = agent.at("shops", "shop-9"), at_home(agent, "01", 65300)
    statuses = []
    for at in range(30):
        code = f"{800_000_000_000 + at}"
        if at % 2:
            told = redeem(shop, account, code, f"g{at}")
        else:
            body = {"Subscription-Id-Data": account, "Reference": f"g{at}"}
            told = shop.ask("POST", f"/vouchers/{code}/redeem", body)
        statuses.append(told.status)
        assert told.status == 429 or told.body["Refusal"] == "O3"
    assert 20 <= statuses.index(429) <= 22
    assert set(statuses[statuses.index(429) :]) == {429}
    assert agent.world.line(told.fields["x-request-id"])["why"] == "codes"
    assert redeem(ada, account, "899999999999", "a1").body["Refusal"] == "O3"
    assert redeem(agent.at("shops", "shop-8"), account, next(CODES), "v1").body["Bucket"] == 1


def test_what_is_refused(agent: Agent, ada: Caller, script: Caller) -> None:
    one, two = at_home(agent, "01", 60300), at_home(agent, "02", 60300)
    code, other, unused = next(CODES), next(CODES), next(CODES)
    assert redeem(ada, one, code, "v1").body["Bucket"] == 1
    for account, what, reference, refusal in (
        (two, code, "v1", "O4"),  # spent by another account
        (one, code, "v2", "O4"),  # spent by itself, under another reference
        (one, other, "v1", "O5"),  # the reference was used for another code
        (one, "999999999999", "v3", "O3"),
        ("60999", unused, "v1", "O2"),
    ):
        assert redeem(ada, account, what, reference).body["Refusal"] == refusal
    assert (len(buckets(script, one)), buckets(script, two)) == (1, [])
    script.ask("POST", f"/accounts/{two}/credits", {"Amount": 1, "Reference": "c1"})
    assert redeem(ada, two, unused, "c1").body["Refusal"] == "O5"
    # A refusal leaves the code and the reference free.
    assert "Bucket" in redeem(ada, two, unused, "v1").body


BAD = {
    "no JSON": ("{", "no JSON"),
    "no object": ("[]", "no JSON object"),
    "a list": ('["Account","Code","Reference"]', "no JSON object"),
    "nothing": ("", "no JSON"),
    "without a reference": ('{"Account":"1","Code":"200000000001"}', "Account, Code, Reference"),
    "a member more": (
        '{"Account":"1","Code":"200000000001","Reference":"r","Amount":"9"}',
        "nothing else",
    ),
    "a member twice": (
        '{"Account":"1","Account":"2","Code":"200000000001","Reference":"r"}',
        "each once",
    ),
    "a number": ('{"Account":1,"Code":"200000000001","Reference":"r"}', "Account is no text"),
    "a short code": ('{"Account":"1","Code":"2000","Reference":"r"}', "Code is 12 digits"),
    "no account": ('{"Account":"<b>","Code":"200000000001","Reference":"r"}', "1 to 15 digits"),
    "no reference": ('{"Account":"1","Code":"200000000001","Reference":""}', "1 to 64"),
    "our reference": (
        '{"Account":"1","Code":"200000000001","Reference":"voucher-200000000002"}',
        "don't begin voucher-",
    ),
    "bytes": (b'{"Account":"\xff"}', "no UTF-8"),
}


@pytest.mark.parametrize("body, fault", BAD.values(), ids=list(BAD))
def test_what_can_not_be_read(ada: Caller, body: Any, fault: str) -> None:
    answer = ada.ask("POST", "/office/agent/redeem", body)
    assert answer.status == 400
    assert fault in answer.body["fault"]


@pytest.fixture(scope="module", name="relay")
def between(agent: Agent) -> Iterator[Relay]:
    """A relay to the doors, which the agent asks."""
    place = agent.world.place
    path, file = place / "relay.sock", place / "relay.toml"
    doors = agent.world.file.read_text().replace(f'"{place}/office.sock"', f'"{path}"')
    file.write_text(doors)
    relay = Relay(path, place / "office.sock", agent.kill)
    agent.kill()
    agent.start(file)
    yield relay
    agent.kill()
    relay.close()
    agent.start()


# A kill before a step leaves what one after the step before leaves.
KILLS = [
    pytest.param(
        step, is_before, marks=[pytest.mark.slow] if is_before and 1 < step < STEPS else []
    )
    for step in range(1, STEPS + 1)
    for is_before in (True, False)
]


@pytest.mark.parametrize("step, is_before", KILLS)
def test_killed_at_a_step_and_asked_again(
    agent: Agent, relay: Relay, ada: Caller, script: Caller, step: int, is_before: bool
) -> None:
    killed_and_asked_again(agent, relay, ada, step, is_before, 61000)


@pytest.mark.parametrize("step", range(1, STEPS + 1))
def test_a_shops_request_is_killed_and_asked_again(
    agent: Agent, relay: Relay, shop: Caller, step: int
) -> None:
    killed_and_asked_again(agent, relay, shop, step, False, 66000)


def killed_and_asked_again(
    agent: Agent, relay: Relay, who: Caller, step: int, is_before: bool, first: int
) -> None:
    """The agent is killed at a step of somebody's request, who then asks the same again."""
    script = agent.script()
    account = at_home(agent, "02", first + 100 * step + 50 * is_before)
    code, file = next(CODES), agent.world.place / "relay.toml"
    agent.ensure(file)
    relay.set(step, is_before)
    assert redeem(who, account, code, "press").status in (502, 503)
    assert relay.count == step
    credited = step == STEPS and not is_before
    assert len(buckets(script, account)) == credited
    agent.start(file)
    relay.set(0, False)
    told = redeem(who, account, code, "press")
    assert (told.status, told.body["Bucket"]) == (200, 1)
    assert len(relay.asked) == STEPS
    again = redeem(who, account, code, "press").body
    assert again | {"as_of": 0} == told.body | {"as_of": 0}
    scope = 10 if int(code) % 2 else None
    assert buckets(script, account) == [(5_000_000, scope)]
    other = at_home(agent, "01", first + 100 * step + 50 * is_before)
    assert redeem(who, other, code, "press").body["Refusal"] == "O4"


def test_a_shard_that_is_away(agent: Agent, relay: Relay, ada: Caller, script: Caller) -> None:
    """The code's shard is away: nothing is credited, and the same again credits once."""
    account, code = at_home(agent, "02", 64000), next(CODES)
    agent.ensure(agent.world.place / "relay.toml")
    relay.set(0, False)
    agent.world.kill(4)
    told = redeem(ada, account, code, "away")
    assert (told.status, "the same again is safe" in told.body["fault"]) == (504, True)
    agent.world.start(4)
    assert redeem(ada, account, code, "away").body["Bucket"] == 1
    assert len(buckets(script, account)) == 1


def test_without_clearing_accounts(agent: Agent, ada: Caller, script: Caller) -> None:
    path = agent.world.place / "clearing"
    kept, code = path.read_text(), next(CODES)
    own, other = at_home(agent, "01", 64100), at_home(agent, "02", 64100)
    path.unlink()
    try:
        told = redeem(ada, other, code, "v1")
        assert (told.status, "`office clearing` makes it" in told.body["fault"]) == (409, True)
        assert redeem(ada, own, next(FIRST), "v1").body["Bucket"] == 1
    finally:
        path.write_text(kept)
    assert redeem(ada, other, code, "v1").body["Bucket"] == 1


def test_the_audit_finds_nothing(agent: Agent) -> None:
    told = agent.world.office("audit")
    assert (told.returncode, told.stdout) == (0, ""), told.stdout


def test_who_redeemed_is_in_the_log(agent: Agent, ada: Caller, script: Caller) -> None:
    account = at_home(agent, "02", 64200)
    told = redeem(ada, account, next(CODES), "shown")
    line = agent.line(told.fields["x-request-id"])
    assert (line["who"], line["account"], line["Bucket"], line["changes"]) == (
        "ada",
        account,
        1,
        True,
    )
    doors = agent.world.line(told.fields["x-request-id"])
    wanted = {"who": "ada", "account": account, "reference": "shown", "code": "2001"}
    assert {name: doors[name] for name in wanted} == wanted
    trace = agent.world.command("trace", account)
    assert "ada at operators: redemption under shown: accepted (2001)" in trace


def test_the_file_of_references_is_away(agent: Agent, ada: Caller, script: Caller) -> None:
    """Where references can't be kept nothing is asked of a shard."""
    path: pathlib.Path = agent.world.place / "redeemed.db"
    account, code = at_home(agent, "02", 64300), next(CODES)
    path.rename(path.with_suffix(".away"))
    path.mkdir()
    try:
        assert redeem(ada, account, code, "v1").status == 409
        assert buckets(script, account) == []
    finally:
        path.rmdir()
        path.with_suffix(".away").rename(path)
    assert redeem(ada, account, code, "v1").body["Bucket"] == 1
