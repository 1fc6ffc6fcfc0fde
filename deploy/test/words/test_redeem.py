"""Clearing accounts and redemptions over shards; tools/play redemptions stops them at each request."""
from __future__ import annotations

import json

from support.callers import Caller, opened
from support.world import World

CODES = ("123456789012", "123456789013")


def account_in(script: Caller, shard: str) -> str:
    """An open account of a shard."""
    return next(
        opened(script, account)
        for account in map(str, range(60000, 60100))
        if script.ask("GET", f"/accounts/{account}").shard == shard
    )


def test_clearing_accounts_are_one_a_shard(world: World, script: Caller) -> None:
    assert world.office("redeem", CODES[0], "1").returncode == 1
    told = world.command("clearing", "--write").split()
    assert world.command("clearing").split() == told
    assert (world.place / "clearing").read_text().split() == told
    found = {script.ask("GET", f"/accounts/{number}").shard for number in told}
    assert (len(told), found) == (2, {"01", "02"})


def test_a_code_of_another_shard(world: World, script: Caller) -> None:
    account = account_in(script, "01")
    told = [world.command("redeem", CODES[0], account) for _ in range(2)]
    assert told == ['{"Bucket":1,"Result-Code":2001}\n'] * 2
    buckets = script.ask("GET", f"/accounts/{account}").body["Buckets"]
    assert [bucket["Credited"] for bucket in buckets] == [5_000_000]


def test_a_code_of_its_own_shard_and_one_that_is_spent(world: World, script: Caller) -> None:
    account, other = account_in(script, "02"), account_in(script, "01")
    assert json.loads(world.command("redeem", CODES[1], account)) == {
        "Bucket": 1,
        "Result-Code": 2001,
    }
    told = world.office("redeem", CODES[1], other)
    assert (told.returncode, told.stdout) == (1, '{"Refusal":"O4"}\n')
    told = world.office("redeem", "999999999999", account)
    assert (told.returncode, told.stdout) == (1, '{"Refusal":"O3"}\n')


def test_words_that_are_off(world: World) -> None:
    assert world.office("redeem", "12", "49151").returncode == 2
    assert world.office("redeem", CODES[0], "x").returncode == 2
