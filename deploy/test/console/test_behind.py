"""What the page says where no agent is; what covered a charge; an agent or a shard that dies with a voucher
of another shard in its hands."""
from __future__ import annotations

import itertools
import re
import time

import pytest
from support.callers import opened
from support.waiting import until
from support.world import World

from console.behind import Agent, behind, rows_of, told
from console.office import ACCOUNT, FAR, MONTH, balance, home, script
from console.person import Person
from console.test_killed import killed_within
from console.test_shown import utc

NUMBERS, CODES = itertools.count(40000), iter(FAR)


def test_an_office_without_an_agent_says_so(operator: Person) -> None:
    behind(operator, ACCOUNT)
    said = "Open sessions, what covered a charge, the doors' log and bars are not here: "
    assert operator.text("#agent-none") == said + "The office can't answer now (503)."
    assert "Bar" not in operator.texts('[role="tab"]')
    operator.show("office")
    said = "Not here: sums, shards, books. The office can't answer now (503)."
    assert operator.text("#office-none") == said
    assert not operator.is_seen("#books")


def test_no_session_is_open(world: World, agent: Agent, operator: Person) -> None:
    """The shards' clock stands, and the agent's doesn't: to it the session is over."""
    behind(operator, ACCOUNT)
    assert told(world, f"account/{ACCOUNT}?month={MONTH}")["sessions"] == []
    assert "No open sessions." in operator.texts("#agent-parts p")


def test_what_covered_a_charge(world: World, agent: Agent, operator: Person) -> None:
    behind(operator, ACCOUNT)
    found = told(world, f"account/{ACCOUNT}?month={MONTH}")["charges"]
    shown = [row for row in rows_of(operator, "#charges") if re.match(r"\d\d:", row[0])]
    wanted = {
        (utc(one["moment"], "%H:%M:%S"), str(one["rating_group"])): one["covered"] for one in found
    }
    assert sum(one["covered"] for one in found) == 74
    for row in shown:
        covered = wanted[row[0], row[1]]
        assert row[3] == (f"{covered:,}" if covered else "")
    assert operator.is_seen("#charges th.covered")


@pytest.fixture(params=["operator", "shop"], name="person")
def who_redeems(request: pytest.FixtureRequest, agent: Agent) -> Person:
    """Somebody who may redeem."""
    found: Person = request.getfixturevalue(request.param)
    return found


def at_home(world: World, person: Person) -> str:
    """A new account of the first account's shard, which the page shows."""
    here = home(world, ACCOUNT)
    number = next(one for one in map(str, NUMBERS) if home(world, one) == here)
    opened(script(world), number)
    if person.texts("#who") == ["desk, operator"]:
        behind(person, number)
    else:
        person.show(number)
    return number


def test_the_agent_dies_with_a_voucher_in_its_hands(
    world: World, agent: Agent, person: Person
) -> None:
    person.show(ACCOUNT)
    number = at_home(world, person)
    person.tab("redeem")
    person.fill("redeem", code=next(CODES))
    before = person.counted("done")
    with world.still(home(world, ACCOUNT)):
        person.push("#redeem button.main")
        until(lambda: world.waiting() + world.admin("show sess").count("be=agent"), "the request")
        time.sleep(0.2)
        agent.kill()
    person.is_counted("done", before)
    assert person.outcome().startswith("No answer.")
    agent.start()
    for _ in range(2):
        assert person.again().startswith("Redeemed the voucher as bucket 1")
    assert [one["Credited"] for one in balance(world, number)["Buckets"]] == [5_000_000]


@pytest.mark.parametrize("when", ["before it came", "with it in its hands"])
@pytest.mark.parametrize("whose", ["the account's", "the code's"])
def test_a_shard_dies_in_the_middle_of_a_voucher(
    world: World, person: Person, whose: str, when: str
) -> None:
    """The shard of the account or of the code is away: pressed again it is credited once."""
    person.show(ACCOUNT)
    number = at_home(world, person)
    here = home(world, ACCOUNT)
    at = here if whose == "the account's" else 1 + here % 2
    person.tab("redeem")
    person.fill("redeem", code=next(CODES))
    before = person.counted("done")
    with killed_within(world, at, when):
        person.push("#redeem button.main")
    try:
        person.is_counted("done", before)
        assert person.outcome().startswith("No answer.")
    finally:
        world.start(at)
    for _ in range(2):
        assert person.again().startswith("Redeemed the voucher as bucket 1")
    assert [one["Credited"] for one in balance(world, number)["Buckets"]] == [5_000_000]
    assert not person.is_seen("#waiting")


def test_a_shop_doesnt_ask_for_it(world: World, agent: Agent, shop: Person) -> None:
    asked = len(world.lines())
    shop.show(ACCOUNT)
    targets = {line["what"] for line in world.lines()[asked:] if line.get("door") == "counter"}
    assert not [one for one in targets if "agent" in one]
    assert not shop.is_seen("#agent")
