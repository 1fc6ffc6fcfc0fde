"""What a shop's door lets through to /ccr: enquiries, which change nothing; and how many codes it may
guess."""
from __future__ import annotations

import itertools
import json
import time
from collections.abc import Callable
from typing import Any

import pytest
from support.callers import Caller, debit, opened, refund
from support.world import World

ACCOUNT = "70060"
CHECK, PRICE = 2, 3
SHOPS = {"by certificate": ("shops", "shop-8"), "of this machine": ("counter", None)}


@pytest.fixture(scope="module", autouse=True)
def account(world: World) -> None:
    """The account that is asked about is open, with 1.00."""
    opened(Caller(world, world.place / "office.sock"), ACCOUNT, 1_000_000)


@pytest.fixture(params=list(SHOPS), name="shop")
def of_a_kind(request: pytest.FixtureRequest, at: Callable[..., Caller]) -> Caller:
    """A shop."""
    return at(*SHOPS[request.param])


def enquiry(action: int, units: int = 60) -> dict[str, Any]:
    """A price enquiry or a check of the balance."""
    return debit(ACCOUNT, "at-the-counter", units) | {"Requested-Action": action}


def rows(script: Caller) -> str:
    """What the account has, without the moment."""
    told = script.ask("GET", f"/accounts/{ACCOUNT}").body
    return json.dumps(told | {"Moment": 0})


def test_a_shop_asks_for_a_price(shop: Caller, script: Caller) -> None:
    before = rows(script)
    told = shop.ask("POST", "/ccr", enquiry(PRICE)).body
    assert told["Cost-Information"]["Unit-Value"]["Value-Digits"] > 0
    assert shop.ask("POST", "/ccr", enquiry(CHECK)).body["Check-Balance-Result"] == 0
    assert shop.ask("POST", "/ccr", enquiry(CHECK, 10**9)).body["Check-Balance-Result"] == 1
    assert rows(script) == before


def session(kind: int) -> dict[str, Any]:
    """A request of a session."""
    body = debit(ACCOUNT, "by-a-shop") | {"CC-Request-Type": kind}
    del body["Requested-Action"]
    return body


def edited(old: str, new: str) -> str:
    """A price enquiry with a text of it in another way."""
    text = json.dumps(enquiry(PRICE))
    assert text.count(old) == 1
    return text.replace(old, new)


ACTION, KIND = '"Requested-Action": 3', '"CC-Request-Type": 4'
OTHERS: dict[str, Any] = {
    "a debit": debit(ACCOUNT, "by-a-shop"),
    "a refund": refund(ACCOUNT, "by-a-shop"),
    "an initial request": session(1),
    "an update": session(2),
    "a termination": session(3),
    "no action": session(4),
    "an action that isn't there": enquiry(PRICE) | {"Requested-Action": 4},
    "an action below nothing": enquiry(PRICE) | {"Requested-Action": -3},
    "a debit behind an enquiry": edited(ACTION, ACTION + ', "Requested-Action": 0'),
    "a debit before an enquiry": edited(ACTION, '"Requested-Action": 0, ' + ACTION),
    "an action further down": edited(ACTION, '"x": {"Requested-Action": 3}'),
    "a second action further down": edited(ACTION, ACTION + ', "x": {"Requested-Action": 0}'),
    "an action in a text": edited(ACTION, r'"x": "\"Requested-Action\": 3"'),
    "an action in disguise": edited(ACTION, r'"Requested-\u0041ction": 0, ' + ACTION),
    "a fraction": edited(ACTION, '"Requested-Action": 3.0'),
    "a power": edited(ACTION, '"Requested-Action": 3e0'),
    "a text for a number": edited(ACTION, '"Requested-Action": "3"'),
    "a kind twice": edited(KIND, '"CC-Request-Type": 1, ' + KIND),
    "a kind behind": edited(KIND, KIND + ', "CC-Request-Type": 1'),
    "a kind further down": edited(KIND, '"x": {"CC-Request-Type": 4}'),
}


@pytest.mark.parametrize("body", OTHERS.values(), ids=list(OTHERS))
def test_a_shop_asks_for_nothing_else(shop: Caller, script: Caller, body: Any) -> None:
    """Refused by the door, or by the program, which doesn't find what the door has read."""
    before = rows(script)
    told = shop.ask("POST", "/ccr", body)
    is_done = told.status == 200 and told.body["Result-Code"] == 2001
    assert not is_done and told.status in (200, 400, 403)
    assert rows(script) == before


def test_why_is_in_the_log(at: Callable[..., Caller], world: World) -> None:
    told = at("shops", "shop-8").ask("POST", "/ccr", debit(ACCOUNT, "by-a-shop"))
    line = world.line(told.fields["x-request-id"])
    assert (told.status, line["why"], line["who"]) == (403, "enquiry", "shop-8")


def guess(shop: Caller, code: int) -> Any:
    """The answer to a code."""
    body = {"Subscription-Id-Data": ACCOUNT, "Reference": f"r{code}"}
    return shop.ask("POST", f"/vouchers/{code:012}/redeem", body)


@pytest.mark.slow
def test_a_guesser_of_codes(at: Callable[..., Caller], world: World, script: Caller) -> None:
    """Twenty wrong codes in a minute, and a shop redeems nothing until the minute is over; others do."""
    shop, codes, begun = at("shops", "shop-9"), itertools.count(700_000_000_000), time.monotonic()
    told = [guess(shop, next(codes)) for _ in range(30)]
    wrong = [one for one in told if one.status == 200]
    assert 20 <= len(wrong) <= 22 and time.monotonic() - begun < 60
    assert {one.text for one in wrong} == {'{"Refusal":"O3"}'}
    assert {one.status for one in told[len(wrong) :]} == {429}
    line = world.line(told[-1].fields["x-request-id"])
    assert (line["why"], line["who"], line["shard"]) == ("codes", "shop-9", "<NOSRV>")
    assert guess(shop, 123456789012).status == 429
    assert shop.ask("POST", "/office/agent/redeem", {}).status == 429
    assert shop.ask("GET", f"/accounts/{ACCOUNT}").status == 200
    assert guess(at("shops", "shop-8"), next(codes)).body == {"Refusal": "O3"}
    assert guess(at("counter"), next(codes)).body == {"Refusal": "O3"}
    assert guess(script, next(codes)).body == {"Refusal": "O3"}
    time.sleep(max(0.0, begun + 75 - time.monotonic()))
    assert guess(shop, next(codes)).body == {"Refusal": "O3"}
