"""A shard that dies in the middle of each command: the page says so, and what is pressed again is
done once, also after the page was opened anew."""
from __future__ import annotations

import contextlib
import itertools
from collections.abc import Iterator
from typing import Any

import pytest
from support.callers import opened
from support.waiting import until
from support.world import World

from console.office import ACCOUNT, balance, home, imported, script
from console.person import Person

NUMBERS = itertools.count(90000)
COMMANDS: dict[str, dict[str, str]] = {
    "credit": {"amount": "3"},
    "allow": {"blocks": "7", "scope": "30"},
    "redeem": {"code": "000000000000"},
}
NO_ANSWER = "No answer. It may have been done: send the same again, it is done once."


@pytest.fixture
def account(world: World, operator: Person) -> Iterator[str]:
    """A new account of the first account's shard, which the page shows; the shard is up afterwards."""
    here = home(world, ACCOUNT)
    number = next(one for one in map(str, NUMBERS) if home(world, one) == here)
    operator.show(opened(script(world), number))
    yield number
    if world.shards[here].poll() is not None:
        world.start(here)
    operator.value("sessionStorage.clear()")


def code_of(world: World) -> str:
    """A new voucher's code."""
    code, here = f"{next(NUMBERS):012}", home(world, ACCOUNT)
    world.kill(here)
    imported(world, here, (code,))
    world.start(here)
    return code


@contextlib.contextmanager
def killed_within(world: World, at: int, when: str) -> Iterator[None]:
    """A shard that is away when a command comes, or that has it when it dies."""
    if when == "before it came":
        world.kill(at)
        yield
        return
    with world.still(at):
        yield
        until(lambda: world.asked(at) >= 1, "the shard's request")
        world.kill(at)


def pressed(person: Person, form: str) -> None:
    """Presses a form's button, and doesn't wait."""
    person.push(f"#{form} button.main")


@pytest.mark.parametrize("when", ["before it came", "with it in its hands"])
@pytest.mark.parametrize("form", list(COMMANDS))
def test_a_command_is_pressed_again(
    world: World, operator: Person, account: str, form: str, when: str
) -> None:
    fields = dict(COMMANDS[form])
    if form == "redeem":
        fields["code"] = code_of(world)
    here, before = home(world, account), operator.counted("done")
    operator.tab(form)
    operator.fill(form, **fields)
    with killed_within(world, here, when):
        pressed(operator, form)
    operator.is_counted("done", before)
    assert operator.outcome() == NO_ANSWER
    assert operator.texts("#unanswered span")[0].endswith(reference(operator))
    world.start(here)
    for _ in range(2):
        assert "as bucket 1" in operator.again() or "as allowance 1" in operator.outcome()
    assert len(balance(world, account)["Buckets"]) == 1
    assert not operator.is_seen("#waiting")


def reference(person: Person) -> str:
    """The reference of what was sent last."""
    return str(person.value("last.reference"))


def test_what_was_done_before_the_kill_is_done_once(
    world: World, operator: Person, account: str
) -> None:
    """The answer is lost: the shard stands still, is asked, goes on, and its answer reaches nobody."""
    here = home(world, account)
    operator.tab("credit")
    operator.fill("credit", amount="4")
    before = operator.counted("done")
    operator.value(
        "ask = (real => async (...words) => { await real(...words); throw new Told('lost'); })(ask)"
    )
    pressed(operator, "credit")
    operator.is_counted("done", before)
    assert operator.outcome() == NO_ANSWER
    assert len(balance(world, account)["Buckets"]) == 1
    world.kill(here)
    world.start(here)
    operator.show(account)
    assert "Credit of 4.00" in operator.texts("#unanswered span")[0]
    before = operator.counted("done")
    operator.click("#unanswered button.main")
    operator.is_counted("done", before)
    assert operator.outcome().startswith("Credited 4.00 as bucket 1")
    assert len(balance(world, account)["Buckets"]) == 1
    assert not operator.is_seen("#waiting")


def test_an_account_is_opened_once(world: World, operator: Person, account: str) -> None:
    here = home(world, account)
    number = next(one for one in map(str, NUMBERS) if home(world, one) == here)
    operator.show(number)
    before = operator.counted("done")
    with killed_within(world, here, "with it in its hands"):
        operator.push("#open button")
    operator.is_counted("done", before)
    assert NO_ANSWER in operator.told()
    world.start(here)
    for said in (f"Opened {number}", f"{number} is there (O1)"):
        before = operator.counted("done")
        operator.value("send(last)")
        operator.is_counted("done", before)
        assert operator.outcome().startswith(said)
    assert balance(world, number)["Buckets"] == []


@pytest.mark.parametrize("when", ["before it came", "with it in its hands"])
def test_a_price_of_a_shard_that_dies(
    world: World, operator: Person, account: str, when: str
) -> None:
    """A price has no reference and is no command: the page says that no answer came, and keeps none."""
    operator.tab("price")
    operator.fill("price", scope="30", unit="events", count="2")
    before = operator.counted("done")
    with killed_within(world, home(world, account), when):
        pressed(operator, "price")
    operator.is_counted("done", before)
    assert operator.outcome().startswith("Price: The office can't answer now (50")
    assert not operator.is_seen("#waiting") and not operator.is_seen("#again")
    world.start(home(world, account))
    assert operator.send("price").startswith("It costs 0.18")


def test_an_office_that_is_away(world: World, operator: Person) -> None:
    operator.show(ACCOUNT)
    world.stop_balancing()
    try:
        operator.find("49152")
        assert operator.text("#fault") == "The office can't be reached."
        assert not operator.is_seen("#sheet")
    finally:
        world.balance()
    operator.find(ACCOUNT)
    assert operator.is_seen("#sheet")


def test_a_read_of_a_shard_that_is_away(world: World, operator: Person, account: str) -> None:
    operator.show(account)
    world.kill(home(world, account))
    operator.find(account)
    told: Any = operator.text("#fault")
    assert told == "The office can't answer now (503)."
