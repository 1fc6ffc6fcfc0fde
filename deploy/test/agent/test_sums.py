"""The office's sums by day, group and shard, against `office audit --sums` and against balances."""
from __future__ import annotations

import collections
import csv
import pathlib
import time
from typing import Any

import pytest

from agent.running import Agent
from support.callers import Caller, debit, opened

MONTH = time.strftime("%Y%m", time.gmtime())
USES = ("charges", "blocks", "covered", "rated", "collected", "uncollected")
AMOUNTS = ("buckets", "credited", "available", "reserved", "charged", "expired")
Sums = dict[tuple[str, ...], collections.Counter[str]]


@pytest.fixture(scope="module", name="told")
def asked(agent: Agent) -> dict[str, Any]:
    """The sums after charges in each shard, of accounts with an allowance among them."""
    script = agent.script()
    for at, account in enumerate(map(str, range(53000, 53016))):
        opened(script, account, 1_000_000 + at)
        if at % 3 == 0:
            body = {"Blocks": 2, "Scope": 10, "Reference": "a1"}
            script.ask("POST", f"/accounts/{account}/allowances", body)
        script.ask("POST", "/ccr", debit(account, f"s{at}", 60 * (1 + at % 5)))
    agent.kill()
    agent.start()
    answer = agent.at("operators", "audit").ask("GET", f"/office/agent/sums?month={MONTH}")
    assert answer.status == 200, answer.text
    return dict(answer.body)


def summed(rows: list[dict[str, Any]], keys: tuple[str, ...], columns: tuple[str, ...]) -> Sums:
    """Sums of columns by these keys."""
    made: Sums = {}
    for row in rows:
        total = made.setdefault(tuple(str(row[key]) for key in keys), collections.Counter())
        total.update({name: int(row[name]) for name in columns})
    return made


def test_days_add_up_to_the_months_of_the_audit(
    agent: Agent, told: dict[str, Any], tmp_path: pathlib.Path
) -> None:
    agent.world.command("audit", "--sums", tmp_path)
    for name, keys, columns in (
        ("charges", ("shard", "book", "rating_group"), USES),
        ("buckets", ("shard", "kind"), AMOUNTS),
    ):
        with (tmp_path / f"{name}.csv").open(newline="") as stream:
            rows = [row for row in csv.DictReader(stream) if row["month"] == MONTH]
        assert summed(told[name], keys, columns) == summed(rows, keys, columns)
    assert len({row["shard"] for row in told["charges"]}) == 4


def test_days_are_those_of_the_month(told: dict[str, Any]) -> None:
    days = {row["day"] for row in told["charges"] + told["buckets"]}
    assert days and all(day.replace("-", "").startswith(MONTH) for day in days)
    assert (told["month"], told["currency"], told["zone"]) == (MONTH, 978, "+00:00")
    assert abs(told["as_of"] - time.time()) < 600


def test_money_is_that_of_the_balances(agent: Agent, told: dict[str, Any]) -> None:
    """What was charged to money, over all accounts, is what was collected."""
    charged = sum(row["charged"] for row in told["buckets"] if row["kind"] == "money")
    assert charged == sum(row["collected"] for row in told["charges"]) > 0
    covered = sum(row["charged"] for row in told["buckets"] if row["kind"] == "blocks of 10")
    assert covered == sum(row["covered"] for row in told["charges"]) > 0


def test_another_month_is_empty(ada: Caller) -> None:
    told = ada.ask("GET", "/office/agent/sums?month=202001").body
    assert (told["charges"], told["buckets"]) == ([], [])


@pytest.mark.parametrize(
    "query, fault",
    (
        ("", "month=YYYYMM is missing"),
        ("?month=2026", "no month"),
        ("?month=202600", "no month"),
        ("?year=2026", "'year' isn't known here"),
    ),
)
def test_what_can_not_be_read(ada: Caller, query: str, fault: str) -> None:
    told = ada.ask("GET", f"/office/agent/sums{query}")
    assert (told.status, fault in told.body["fault"]) == (400, True)
