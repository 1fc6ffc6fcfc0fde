"""Each view of the page in pictures (`pictures`): by an operator, a revenue officer and a shop."""
from __future__ import annotations

import contextlib
import itertools
import pathlib
import re
from collections.abc import Callable, Iterator

import pytest
from support.callers import opened
from support.world import DEPLOY, TOP, World

from console.behind import Agent, behind
from console.office import ACCOUNT, BARRED, FAR, MONTH, NOBODY, POOR, home, script
from console.person import Person
from console.pictures import SCHEMES, SHOWN, WIDTHS, size_of, taken

pytestmark = pytest.mark.slow
NUMBERS = map(str, itertools.count(95000))
# Forms of the account's page, with what is written into them and what the page says then.
FORMS: dict[str, tuple[dict[str, str], str]] = {
    "credit": ({"amount": "12.50", "until": "2026-02-28", "scope": "20"}, "Credited 12.50"),
    "allow": ({"blocks": "25", "scope": "30"}, "Gave 25 blocks"),
    "redeem": ({"code": "999999999999"}, "Voucher 999999999999: Refused: there is no such"),
    "price": ({"scope": "30", "unit": "events", "count": "2"}, "It costs 0.18"),
}


PLACES = {"begun": "", "none": NOBODY, "wrong": "12-34", "barred": BARRED, "poor": POOR}


@pytest.mark.parametrize("name", list(PLACES))
def test_what_is_found(operator: Person, pictures: pathlib.Path, name: str) -> None:
    operator.show(PLACES[name])
    taken(operator, pictures, name)


def test_an_account(operator: Person, agent: Agent, pictures: pathlib.Path) -> None:
    behind(operator, ACCOUNT)
    taken(operator, pictures, "account")
    operator.choose("#series", "blocks of group 20")
    operator.value("document.getElementById('past-box').open = true")
    taken(operator, pictures, "blocks", ".columns > div:first-child")
    taken(operator, pictures, "blocks-month", "#month-side section")
    operator.value("document.getElementById('past-box').open = false")


@pytest.mark.parametrize("form", list(FORMS))
def test_a_form(operator: Person, agent: Agent, pictures: pathlib.Path, form: str) -> None:
    """A form that is filled in, and what the page says once it was sent."""
    fields, said = FORMS[form]
    behind(operator, ACCOUNT)
    operator.tab(form)
    operator.fill(form, **fields)
    taken(operator, pictures, f"{form}-filled", "#do")
    assert operator.send(form).startswith(said)
    taken(operator, pictures, f"{form}-sent", "#do")


def test_a_wrong_value(operator: Person, pictures: pathlib.Path) -> None:
    operator.show(ACCOUNT)
    operator.tab("credit")
    operator.fill("credit", amount="1,00")
    assert operator.send("credit").startswith("An amount is")
    taken(operator, pictures, "wrong-value", "#do")


def test_no_answer(world: World, operator: Person, pictures: pathlib.Path) -> None:
    operator.show(ACCOUNT)
    operator.tab("credit")
    operator.fill("credit", amount="12.50")
    with away(world, ACCOUNT):
        assert operator.send("credit").startswith("No answer.")
        taken(operator, pictures, "no-answer")
    assert operator.again().startswith("Credited 12.50")


@contextlib.contextmanager
def away(world: World, account: str) -> Iterator[None]:
    """The shard of an account is away meanwhile."""
    world.kill(home(world, account))
    try:
        yield
    finally:
        world.start(home(world, account))


def test_an_office_that_is_away(world: World, operator: Person, pictures: pathlib.Path) -> None:
    operator.show(ACCOUNT)
    with away(world, ACCOUNT):
        operator.find(ACCOUNT)
        taken(operator, pictures, "away")


def test_all_accounts(reader: Person, agent: Agent, pictures: pathlib.Path) -> None:
    reader.show(f"office/{MONTH}")
    reader.file("#trial [name=file]", TOP / "examples/later-book.toml")
    reader.value("document.querySelector('#trial [name=from]').value = '2027-03-01T00:00'")
    sent(reader, "trial", lambda said: said.startswith("The book may follow"))
    file = pictures / "vouchers.csv"
    file.write_text(f"code,amount,days,scope\n{FAR[2]},1,,\n{FAR[2]},1,,\n")
    reader.file("#check [name=file]", file)
    sent(reader, "check", lambda said: said.startswith("This file may not be imported"))
    taken(reader, pictures, "office")


def sent(person: Person, form: str, holds: Callable[[str], bool]) -> None:
    """Sends a form of all accounts."""
    before = person.counted("done")
    person.push(f"#{form} button.main")
    person.is_counted("done", before)
    said = person.text(f"#{form}-done") + person.text(f"#{form}-refused")
    assert holds(said), said


def test_an_office_without_an_agent(operator: Person, pictures: pathlib.Path, agent: Agent) -> None:
    agent.kill()
    try:
        operator.show("office")
        taken(operator, pictures, "office-away")
    finally:
        agent.start()


def test_a_shop(world: World, shop: Person, agent: Agent, pictures: pathlib.Path) -> None:
    shop.show(ACCOUNT)
    shop.tab("redeem")
    shop.fill("redeem", code="999999999999")
    assert "there is no such voucher" in shop.send("redeem")
    taken(shop, pictures, "shop")
    account = opened(script(world), next(NUMBERS))
    shop.show(account)
    taken(shop, pictures, "shop-new")


def test_pages_show_pictures_that_are_made() -> None:
    """Each picture in the folder of deploy is one that is made here, as wide and as high, and a page shows
    it."""
    there = {path.stem: size_of(path) for path in (DEPLOY / "pictures").glob("*.png")}
    pages = "".join(path.read_text(encoding="utf-8") for path in DEPLOY.glob("*.md"))
    named = set(re.findall(r"\(pictures/([a-z0-9-]+)\.png\)", pages))
    assert set(there) == named == set(SHOWN)
    for name, (width, height) in there.items():
        _, wide, scheme = name.rsplit("-", 2)
        assert (int(wide) in WIDTHS, scheme in SCHEMES, width) == (True, True, int(wide))
        assert height <= SHOWN[name]
