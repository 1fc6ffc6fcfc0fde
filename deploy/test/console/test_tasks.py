"""Each task of the page (`tasks`) by each who may, by keys alone and by a pointer, and refused to who may
not: it isn't offered, and the door refuses what is asked by hand."""
from __future__ import annotations

import json
import re
from collections.abc import Iterator

import pytest
from support.world import DEPLOY

from console.account_tasks import found
from console.desk import PEOPLE, Desk, at_work
from console.office import ACCOUNT, NOBODY, home
from console.person import Person
from console.tasks import TASKS, Tried
from console.test_killed import killed_within

WAYS = ("keys", "pointer")
# The quick part has each task by one by keys, and by another by a pointer where another may.
MAY = [
    pytest.param(
        *(task, who, way),
        marks=() if (who, way) in zip(each.who, WAYS) else pytest.mark.slow,
        id=f"{task}-{who}-{way}",
    )
    for task, each in TASKS.items()
    for who in each.who
    for way in WAYS
]
MAY_NOT = [(task, who) for task, each in TASKS.items() for who in PEOPLE if who not in each.who]
# What isn't offered is shown by hand, as somebody might who can change his page.
UNHIDE = """(() => {
    for (let one = document.getElementById(FORM); one; one = one.parentElement) one.hidden = false;
    for (const [name, value] of Object.entries(FIELDS)) document.getElementById(FORM).elements[name].value = value;
    document.getElementById(FORM).requestSubmit();
})()"""


@pytest.fixture(scope="module")
def desk() -> Iterator[Desk]:
    """The office, and who is at its page."""
    with at_work() as one:
        yield one


@pytest.mark.parametrize("task, who, way", MAY)
def test_it_is_done(desk: Desk, task: str, who: str, way: str) -> None:
    person = desk.people[who]
    person.way = way
    person.show()
    TASKS[task].do(desk, person)


@pytest.mark.parametrize("task, who", MAY_NOT)
def test_it_is_refused(desk: Desk, task: str, who: str) -> None:
    person, tried = desk.people[who], TASKS[task].tried
    assert tried
    before = there(desk)
    person.show(tried.at)
    assert not person.is_seen(tried.offered)
    assert by_hand(person, tried) == 403
    if tried.form:
        assert "may not do that here (403)" in forced(person, tried)
    assert there(desk) == before


def there(desk: Desk) -> object:
    """What a task that is refused might change."""
    accounts = [desk.ask("GET", f"/accounts/{one}") for one in (ACCOUNT, NOBODY)]
    return [{key: value for key, value in one.items() if key != "Moment"} for one in accounts]


def by_hand(person: Person, tried: Tried) -> int:
    """The status of a request that the page wouldn't send."""
    body = tried.body if isinstance(tried.body, str | None) else json.dumps(tried.body)
    if tried.method != "GET" and body is None:
        body = ""
    words = json.dumps([tried.method, tried.path])[1:-1]
    said = "undefined" if body is None else json.dumps(body)
    return int(
        person.value(f"ask({words}, {said}, 30, {json.dumps(tried.kind)}).then(one => one.status)")
    )


def forced(person: Person, tried: Tried) -> str:
    """Sends a form that isn't offered, and reads what the page says of it."""
    before = person.counted("done")
    words = UNHIDE.replace("FORM", json.dumps(tried.form))
    person.value(words.replace("FIELDS", json.dumps(tried.fields)))
    person.is_counted("done", before)
    return person.outcome() + person.told()


@pytest.mark.parametrize("when", ["before it came", "with it in its hands"])
def test_an_account_of_a_shard_that_dies_is_barred(desk: Desk, when: str) -> None:
    """The agent asks the shard whether the account is there, and bars it in its database then."""
    person, account = desk.people["operator"], desk.new()
    at = home(desk.world, account)
    person.way = "pointer"
    person.show()
    found(person, account)
    person.tab("bar")
    before = person.counted("done")
    try:
        with killed_within(desk.world, at, when):
            person.push("#bar button.main")
        person.is_counted("done", before)
        assert person.told().startswith("Barred; others of its shard waited 0 seconds")
        assert not person.is_seen("#waiting")
    finally:
        desk.world.start(at)
    assert desk.ask("GET", f"/accounts/{account}")["Barred"] is True


def test_each_part_of_the_page_has_a_task() -> None:
    """Parts are the page's sections, by the ids of their titles."""
    page = (DEPLOY / "console/console.html").read_text(encoding="utf-8")
    parts = re.findall(r'<section[^>]* aria-labelledby="([a-z]+)-title"', page)
    assert sorted(parts) == sorted({task.part for task in TASKS.values()})
