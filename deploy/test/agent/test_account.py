"""An account's lines, open sessions and charges, through the operators' door."""
from __future__ import annotations

import time
from typing import Any

import pytest

from agent.running import Agent
from support.callers import Caller, debit, opened, subscription

MONTH = time.strftime("%Y%m", time.gmtime())
ALLOWED = {"Blocks": 3, "Scope": 10, "Reference": "a1"}


def session(account: str, name: str, kind: int, number: int, used: int = -1) -> dict[str, Any]:
    """A request of a session for 120 seconds of service 10."""
    service: dict[str, Any] = {"Rating-Group": 10, "Requested-Service-Unit": {"CC-Time": 120}}
    if used >= 0:
        service["Used-Service-Unit"] = [{"CC-Time": used}]
    return {
        "Session-Id": name,
        "CC-Request-Type": kind,
        "CC-Request-Number": number,
        "Subscription-Id": subscription(account),
        "Multiple-Services-Credit-Control": [service],
    }


@pytest.fixture(scope="module", name="told")
def asked(agent: Agent) -> dict[str, Any]:
    """What the agent says of an account with an allowance, money, charges and an open session."""
    script, account = agent.script(), opened(agent.script(), "50001", 1_000_000)
    script.ask("POST", f"/accounts/{account}/allowances", ALLOWED)
    script.ask("POST", "/ccr", debit(account, "covered", 120))
    script.ask("POST", "/ccr", debit(account, "half", 120))
    script.ask("POST", "/ccr", debit(account, "too-much", 100 * 60))
    for kind, number, used in ((1, 0, -1), (2, 1, 60)):
        assert script.ask("POST", "/ccr", session(account, "s1", kind, number, used)).status == 200
    answer = agent.at("operators", "ada").ask("GET", f"/office/agent/account/{account}")
    assert answer.status == 200
    return dict(answer.body)


def test_why_she_was_refused(told: dict[str, Any]) -> None:
    sentences = [line["sentence"] for line in told["lines"]]
    refused = [line for line in sentences if "session too-much" in line]
    assert len(refused) == 1 and "denied, no money for it (4012)" in refused[0]
    assert [line["asked"] for line in told["lines"]][:2] == [
        "opening /accounts/50001",
        "credit of 1000000 under first-50001",
    ]
    assert all(line["who"] == "scripts" and line["id"] for line in told["lines"])


def test_the_lines_are_those_of_the_word(agent: Agent, told: dict[str, Any]) -> None:
    lines = agent.world.command("trace", "50001").splitlines()
    assert lines[: len(told["lines"])] == [line["sentence"] for line in told["lines"]]


def test_charges_are_those_of_the_statement(script: Caller, told: dict[str, Any]) -> None:
    text = script.ask("GET", f"/accounts/50001/statement/{MONTH}").text
    names = ("moment", "rating_group", "blocks", "rated", "collected", "uncollected")
    rows = [[str(one[name]) for name in names] for one in told["charges"]]
    assert rows == [line.split() for line in text.splitlines()[2 : 2 + len(rows)]]
    assert text.splitlines()[2 + len(rows)].split()[0] == "TOTAL"
    assert [one["covered"] for one in told["charges"]] == [2, 1, 0]
    assert told["month"] == MONTH


def test_a_session_is_open_with_what_it_holds(script: Caller, told: dict[str, Any]) -> None:
    (one,) = told["sessions"]
    assert (one["session"], one["last_number"]) == ("s1", 1)
    assert one["ends"] > told["as_of"] > one["touched"] - 1
    (group,) = one["groups"]
    assert (group["rating_group"], group["used"], group["reserved"]) == (10, 60, True)
    buckets = script.ask("GET", "/accounts/50001").body["Buckets"]
    held = {each["bucket"]: each["amount"] for each in group["held"]}
    assert held == {one["Number"]: one["Reserved"] for one in buckets if one["Reserved"]}
    assert not any(each["is_blocks"] for each in group["held"])


def test_a_copy_is_kept_for_a_minute(agent: Agent, ada: Caller, told: dict[str, Any]) -> None:
    again = ada.ask("GET", "/office/agent/account/50001").body
    assert 0 <= time.time() - again["as_of"] < 60 + 30
    if again["as_of"] == told["as_of"]:
        assert again["charges"] == told["charges"]
    assert again["lines_as_of"] > told["lines_as_of"]
    assert len(list(agent.world.place.glob(".agent-*"))) == 1


def test_another_month_has_none(ada: Caller) -> None:
    assert ada.ask("GET", "/office/agent/account/50001?month=202001").body["charges"] == []


def test_lines_from_a_moment_on(ada: Caller, told: dict[str, Any]) -> None:
    path = f"/office/agent/account/50001?since={int(time.time()) + 3600}"
    assert ada.ask("GET", path).body["lines"] == []
    path = f"/office/agent/account/50001?since={int(told['lines'][0]['moment'])}"
    assert len(ada.ask("GET", path).body["lines"]) >= len(told["lines"])


def test_an_unknown_account_has_its_lines(agent: Agent, ada: Caller) -> None:
    agent.script().ask("POST", "/ccr", debit("50009", "nobody"))
    told = ada.ask("GET", "/office/agent/account/50009")
    assert (told.status, told.body["is_open"]) == (200, False)
    assert "no such account (5030)" in told.body["lines"][0]["sentence"]


@pytest.mark.parametrize(
    "query, fault",
    {
        "?day=1": "'day' isn't known here",
        "?month=202613": "no month",
        "?month=202611&month=202611": "a name comes twice",
        "?since=yesterday": "no moment",
        "?since=": "no moment",
    }.items(),
)
def test_what_can_not_be_read(ada: Caller, query: str, fault: str) -> None:
    answer = ada.ask("GET", f"/office/agent/account/50001{query}")
    assert (answer.status, fault in answer.body["fault"]) == (400, True)
    assert answer.body["as_of"]
