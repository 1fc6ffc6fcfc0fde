"""Who is offered what: a shop, an operator, a revenue officer. `test_tasks` has each task by who may, and
refused to who may not."""
from __future__ import annotations

import json
from typing import Any

import pytest
from support.callers import opened
from support.world import World

from console.office import ACCOUNT, CODES, FAR, NOBODY, balance, charges, home, script
from console.person import Person

NUMBERS = map(str, range(80000, 90000))


@pytest.fixture
def account(world: World) -> str:
    """A new account, which lives where the vouchers are."""
    here = home(world, ACCOUNT)
    return opened(
        script(world), next(one for one in NUMBERS if home(world, one) == here), 1_000_000
    )


def test_a_shop_redeems_without_an_agent(world: World, shop: Person, account: str) -> None:
    """It is offered what it may, and a code of the account's own shard is credited."""
    shop.show()
    shop.find(account)
    assert (shop.text("#who"), shop.text("#available")) == ("counter, shop", "1.00")
    assert shop.texts('[role="tab"]') == ["Voucher", "Price"]
    assert not shop.is_seen("#agent") and not shop.is_seen("#views")
    shop.tab("redeem")
    shop.fill("redeem", code=CODES[3])
    assert shop.send("redeem").startswith("Redeemed the voucher as bucket 2")
    assert balance(world, account)["Buckets"][1]["Credited"] == 5_000_000
    assert shop.text("#available") == "6.00"


def test_a_shop_is_told_where_was_looked(shop: Person, account: str) -> None:
    """No agent is there, which the page finds out before, so it asks the account's own shard."""
    shop.show(account)
    shop.tab("redeem")
    shop.fill("redeem", code=FAR[0])
    told = shop.send("redeem")
    assert "there is no such voucher (O3). Only the codes of this account's shard" in told
    assert not shop.is_seen("#waiting")


def test_a_shop_that_guesses_codes(world: World, shop: Person, account: str) -> None:
    """After twenty that no voucher has the page says that it has to wait, and others go on."""
    shop.show(account)
    shop.tab("redeem")
    for at in range(25):
        shop.fill("redeem", code=f"{600_000_000_000 + at}")
        told = shop.send("redeem")
        if "(429)" in told:
            break
        assert "there is no such voucher (O3)" in told
    assert at in (20, 21, 22)
    assert "Too much was asked at once (429)." in told
    assert "Codes that no voucher has count for a minute." in told
    shop.find(ACCOUNT)
    assert shop.is_seen("#sheet")
    world.admin("clear table callers")


def test_a_revenue_officer_sees_all_and_changes_nothing(world: World, reader: Person) -> None:
    reader.show(ACCOUNT)
    assert reader.text("#who") == "rosa, operator who only reads"
    assert not reader.is_seen("#do") and reader.is_seen("#month-side")
    found = reader.value("document.querySelectorAll('#charges tbody tr:not(.day)').length")
    assert found == len(charges(world))
    reader.show(NOBODY)
    assert reader.told() == f"There is no account {NOBODY} (O2)." and not reader.is_seen("#none")


def test_an_operator_by_name_is_offered_all(world: World, operator: Person) -> None:
    operator.show(ACCOUNT)
    assert operator.texts('[role="tab"]') == ["Credit", "Allowance", "Voucher", "Price"]
    assert operator.is_seen("#month-side") and operator.is_seen("#views")


DEBIT = """ask('POST', '/ccr', JSON.stringify({'Session-Id': 'by-hand', 'CC-Request-Type': 4,
    'CC-Request-Number': 0, 'Requested-Action': 0, 'Subscription-Id': {'Subscription-Id-Type': 0,
    'Subscription-Id-Data': ACCOUNT}, 'Multiple-Services-Credit-Control': [{'Rating-Group': 30,
    'Requested-Service-Unit': {'CC-Service-Specific-Units': 1}}]})).then(one => one.status)"""


@pytest.mark.parametrize("who", ["shop", "reader"])
def test_the_door_refuses_a_debit(world: World, request: pytest.FixtureRequest, who: str) -> None:
    """A price goes the way of a debit, which a shop and a revenue officer may not."""
    person: Any = request.getfixturevalue(who)
    person.show(ACCOUNT)
    before = balance(world)
    assert person.value(DEBIT.replace("ACCOUNT", json.dumps(ACCOUNT))) == 403
    assert balance(world) == before
