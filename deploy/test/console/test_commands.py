"""What an operator's commands come to: wrong values that aren't sent, refusals, amounts at their limits.
`test_tasks` has each of them by keys and by a pointer."""
from __future__ import annotations

import itertools
import re
from typing import Any

import pytest
from support.callers import opened
from support.world import World

from console.office import ACCOUNT, CODES, MOMENT, balance, home, script
from console.person import Person

ID = r" \(request [0-9a-f]{8}\)"
LIVES = itertools.count(60000)


@pytest.fixture
def account(world: World, operator: Person) -> str:
    """A new account with money, which the page shows; it lives where the vouchers are."""
    here = home(world, ACCOUNT)
    number = next(one for one in map(str, LIVES) if home(world, one) == here)
    operator.show(opened(script(world), number, 1_000_000))
    return number


def newest(world: World, account: str) -> Any:
    """The last bucket of an account."""
    return balance(world, account)["Buckets"][-1]


def test_a_voucher_without_an_agent(world: World, operator: Person, account: str) -> None:
    """It is looked for in the account's own shard, under a reference of its code."""
    code = CODES[0]
    operator.tab("redeem")
    operator.fill("redeem", code=f"{code[:4]} {code[4:8]}-{code[8:]}")
    named = operator.value("document.querySelector('#redeem [name=reference]').value")
    assert named == f"redeem-{code}"
    assert re.fullmatch(f"Redeemed the voucher as bucket 2{ID}", operator.send("redeem"))
    assert newest(world, account)["Credited"] == 5_000_000
    operator.fill("redeem", code=code)
    assert operator.send("redeem").startswith("Redeemed the voucher as bucket 2")
    assert len(balance(world, account)["Buckets"]) == 2


def test_a_price_that_isnt_one(operator: Person, account: str) -> None:
    operator.tab("price")
    operator.fill("price", scope="30", unit="events", count="2")
    assert operator.send("price") == "It costs 0.18 without allowances; the account can pay it."
    operator.fill("price", unit="seconds")
    assert operator.send("price") == "Price: The group counts in another kind of units."
    operator.fill("price", scope="99")
    assert operator.send("price").startswith("Price: Refused: the tariff book has no such group")


@pytest.mark.parametrize(
    "amount",
    ["0", "-5", "1.0000001", "abc", "", "1000000000.1", "99999999999", "1e3", "5 000", "1,00"],
)
def test_an_amount_that_isnt_sent(world: World, operator: Person, amount: str) -> None:
    operator.show(ACCOUNT)
    before = len(balance(world)["Buckets"])
    operator.tab("credit")
    operator.fill("credit", amount=amount)
    assert operator.send("credit").startswith("An amount is a number above 0")
    field = "document.querySelector('#credit [name=amount]')"
    assert operator.value(f"{field}.getAttribute('aria-invalid')") == "true"
    assert operator.value(f"document.activeElement === {field}")
    assert len(balance(world)["Buckets"]) == before


UNREAD = {
    "a group of letters": ("credit", {"amount": "1", "scope": "x"}, "A group is"),
    "a reference with a space": ("credit", {"amount": "1", "reference": "a b"}, "A reference"),
    "no blocks": ("allow", {"blocks": "0", "scope": "10"}, "Blocks are"),
    "an allowance of no group": ("allow", {"blocks": "5", "scope": ""}, "An allowance"),
    "a short code": ("redeem", {"code": "123"}, "A code is"),
    "a price of no group": ("price", {"scope": "", "count": "5"}, "A group"),
    "a price of nothing": ("price", {"scope": "10", "count": "0"}, "Ask for"),
}


@pytest.mark.parametrize("form, fields, said", UNREAD.values(), ids=list(UNREAD))
def test_a_value_that_isnt_sent(
    world: World, operator: Person, form: str, fields: dict[str, str], said: str
) -> None:
    operator.show(ACCOUNT)
    asked = len(world.lines())
    operator.tab(form)
    operator.fill(form, **fields)
    assert operator.send(form).startswith(said)
    assert not [one for one in world.lines()[asked:] if one["what"].startswith("POST")]


REFUSED = {
    "a reference twice": (
        "credit",
        {"amount": "7", "reference": "cash-2"},
        "the reference was used for something else (O5)",
    ),
    "a day that is over": (
        "credit",
        {"amount": "1", "until": "2025-01-01"},
        "it would be over before it begins (O6)",
    ),
    "an allowance of another book's group": (
        "allow",
        {"blocks": "5", "scope": "77"},
        "the tariff book has no such group (O7)",
    ),
    "a code of nobody": ("redeem", {"code": "999999999999"}, "there is no such voucher (O3)"),
}


@pytest.mark.parametrize("form, fields, said", REFUSED.values(), ids=list(REFUSED))
def test_a_refusal_is_a_sentence(
    world: World, operator: Person, form: str, fields: dict[str, str], said: str
) -> None:
    operator.show(ACCOUNT)
    before = balance(world)["Buckets"]
    operator.tab(form)
    operator.fill(form, **fields)
    told = operator.send(form)
    assert f": Refused: {said}." in told and re.search(ID, told)
    assert operator.value("document.getElementById('refused').getAttribute('role')") == "alert"
    assert balance(world)["Buckets"] == before
    assert operator.value("document.getElementById('unanswered').children.length") == 0


def test_a_spent_voucher(world: World, operator: Person, account: str) -> None:
    other = next(one for one in map(str, LIVES) if home(world, one) == home(world, ACCOUNT))
    opened(script(world), other)
    body = {"Subscription-Id-Data": other, "Reference": "theirs"}
    assert "Bucket" in script(world).ask("POST", f"/vouchers/{CODES[2]}/redeem", body).body
    operator.tab("redeem")
    operator.fill("redeem", code=CODES[2])
    assert "the voucher is spent (O4)" in operator.send("redeem")


def test_the_least_and_the_most(world: World, operator: Person, account: str) -> None:
    for amount, micro in (("0.000001", 1), ("1000000000", 10**15)):
        operator.tab("credit")
        operator.fill("credit", amount=amount)
        assert operator.send("credit").startswith("Credited")
        assert newest(world, account)["Credited"] == micro
    assert operator.text("#available") == "1,000,000,001.000001"
    assert MOMENT == balance(world, account)["Moment"]
