"""The books that hold, and a book that is tried, against the program's own word and prices."""
from __future__ import annotations

import time
import tomllib

import pytest

from agent.running import Agent
from support.callers import Caller, opened, subscription
from support.world import BOOK, TOP

LATER = TOP / "examples/later-book.toml"
TOML = "application/toml"
FROM = int(time.time()) + 40 * 86_400


def test_the_book_that_holds(ada: Caller) -> None:
    told = ada.ask("GET", "/office/agent/books")
    assert told.status == 200
    (shelf,) = told.body["shelves"]
    assert shelf["shards"] == ["01", "02", "03", "04"]
    (book,) = shelf["books"]
    wanted = tomllib.loads(BOOK.read_text())
    assert (book["holds"], book["starts"], book["text"]) == (True, 0, BOOK.read_text())
    assert (book["currency"], book["zone"], book["week"]) == (
        wanted["currency"],
        wanted["zone"],
        wanted["week"],
    )
    rows = [
        (group["rating_group"], price["period"], [(tier["upto"], tier["price"]) for tier in tiers])
        for group in book["groups"]
        for price in group["prices"]
        for tiers in [price["tiers"]]
    ]
    assert rows == [
        (
            group["id"],
            price["period"],
            [(tier.get("upto"), tier["price"]) for tier in price["tiers"]],
        )
        for group in wanted["group"]
        for price in group["price"]
    ]


def test_a_trial_is_that_of_the_word(agent: Agent, ada: Caller) -> None:
    path = f"/office/agent/trial?from={FROM}&blocks=1,10"
    answer = ada.patient(90).ask("POST", path, LATER.read_text(), Content_Type=TOML)
    assert answer.status == 200, answer.text
    told = agent.world.command("trial", LATER, "--from", FROM, "--blocks", "1,10").splitlines()
    rows = [
        [str(one[name]) for name in ("rating_group", "period", "blocks", "old", "new")]
        for one in answer.body["prices"]
    ]
    assert [row.split()[:5] for row in told[1:]] == [
        ["none" if value == "None" else value for value in row] for row in rows
    ]
    assert any(one["old"] != one["new"] for one in answer.body["prices"])
    assert answer.body["from"] == FROM and "in +00:00" in answer.body["from_shown"]
    shelf = ada.ask("GET", "/office/agent/books").body["shelves"][0]
    assert len(shelf["books"]) == 1


def test_old_prices_are_those_of_the_program(ada: Caller, script: Caller) -> None:
    """Events have one price in each period, so an enquiry of now has it too."""
    path = f"/office/agent/trial?from={FROM}&blocks=7"
    told = ada.patient(90).ask("POST", path, LATER.read_text(), Content_Type=TOML).body["prices"]
    asked = {
        "Session-Id": "price",
        "CC-Request-Type": 4,
        "CC-Request-Number": 0,
        "Requested-Action": 3,
        "Subscription-Id": subscription(opened(script, "52001")),
        "Multiple-Services-Credit-Control": [
            {"Rating-Group": 30, "Requested-Service-Unit": {"CC-Service-Specific-Units": 7}}
        ],
    }
    cost = script.ask("POST", "/ccr", asked).body["Cost-Information"]["Unit-Value"]
    assert {one["old"] for one in told if one["rating_group"] == 30} == {cost["Value-Digits"]}


BAD = {
    "no moment": ("", BOOK.read_text(), 400, "from=YYYY-MM-DDThh:mm"),
    "a moment that is none": ("?from=tomorrow", BOOK.read_text(), 400, "no moment"),
    "blocks that are none": (f"?from={FROM}&blocks=0", BOOK.read_text(), 400, "blocks are numbers"),
    "a shard that isn't there": (f"?from={FROM}&shard=77", BOOK.read_text(), 400, "no shard 77"),
    "another name": (f"?from={FROM}&x=1", BOOK.read_text(), 400, "'x' isn't known here"),
    "no TOML": (f"?from={FROM}", "x = ", 400, "no tariff book: ocs: book fault 1"),
    "nothing": (f"?from={FROM}", "", 400, "no tariff book"),
    "no UTF-8": (f"?from={FROM}", b"\xff", 400, "no UTF-8"),
    "another currency": (
        f"?from={FROM}",
        BOOK.read_text().replace("currency = 978", "currency = 840"),
        409,
        "another zone or currency",
    ),
    "before the last command": ("?from=5", LATER.read_text(), 409, "before the last book"),
}


@pytest.mark.parametrize("query, body, status, fault", BAD.values(), ids=list(BAD))
def test_what_is_refused(
    ada: Caller, script: Caller, query: str, body: str | bytes, status: int, fault: str
) -> None:
    opened(script, "52002", 1)
    answer = ada.patient(90).ask("POST", f"/office/agent/trial{query}", body, Content_Type=TOML)
    assert (answer.status, fault in answer.body["fault"]) == (status, True), answer.text


def test_a_body_that_is_called_something_else(ada: Caller) -> None:
    for kind in ("application/json", "text/plain", "application/x-www-form-urlencoded", "-"):
        answer = ada.ask("POST", f"/office/agent/trial?from={FROM}", "x", Content_Type=kind)
        assert answer.status == 415
