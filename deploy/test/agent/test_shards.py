"""The state of shards, what waits, and the ages of copies."""
from __future__ import annotations

import pathlib
import threading
import time
from typing import Any

from office import settings
from office.agent import state

from agent.running import Agent
from core.test_example import MACHINES, TEXT
from support.callers import Caller, debit, opened
from support.waiting import until


def shards(caller: Caller) -> dict[str, dict[str, Any]]:
    """The state of each shard by its number."""
    told = caller.patient(90).ask("GET", "/office/agent/shards")
    assert told.status == 200, told.text
    return {one["shard"]: one for one in told.body["shards"]}


def test_all_are_up(agent: Agent, audit: Caller) -> None:
    told = audit.ask("GET", "/office/agent/shards").body
    assert told["machines"] is None and abs(told["as_of"] - time.time()) < 60
    for number, one in shards(audit).items():
        assert one["answers"] is True and one["waiting"] == 0 and one["seconds"] >= 0
        assert one["bytes"] == sum(
            path.stat().st_size for path in agent.world.place.glob(f"{number}.db*")
        )
        assert one["ahead"] == 0 and one["room_bytes"] > 0 and one["hashed"] is True
        assert one["unit"] is None


def test_ages_of_copies(agent: Agent, audit: Caller) -> None:
    assert shards(audit)["01"]["copied"] is None
    agent.world.command("backups")
    told = shards(audit)
    assert all(abs(one["copied"] - time.time()) < 120 for one in told.values())
    audit.ask("GET", "/office/agent/books")
    assert all(abs(one["read"] - time.time()) < 120 for one in shards(audit).values())


def test_a_sweep_is_seen(agent: Agent, audit: Caller) -> None:
    agent.world.command("sweep")
    assert all(abs(one["swept"] - time.time()) < 120 for one in shards(audit).values())


def test_a_shard_that_stands_still(agent: Agent, audit: Caller, script: Caller) -> None:
    number = int(agent.home(opened(script, "54001")))
    with agent.world.still(number):
        those = [
            threading.Thread(
                target=lambda at=at: agent.script().ask("POST", "/ccr", debit("54001", f"w{at}"))
            )
            for at in range(3)
        ]
        for one in those:
            one.start()
        until(lambda: agent.world.waiting() >= 2, "two that wait")
        told = shards(audit)
    for one in those:
        one.join()
    assert told[f"{number:02}"]["answers"] is False
    assert told[f"{number:02}"]["waiting"] >= 2
    assert sum(one["answers"] for one in told.values()) == 3


def test_nothing_stands_behind_it(ada: Caller) -> None:
    assert ada.ask("GET", "/office/agent/shards?x=1").status == 404


def test_two_machines(tmp_path: pathlib.Path) -> None:
    """An office of two machines, told of a machine that is none of them: nothing is in step."""
    path = tmp_path / "office.toml"
    path.write_text(TEXT + MACHINES, encoding="utf-8")
    told = state.machines(settings.read(path))
    assert told is not None
    assert told["mirrored"] == {number: False for number in ("01", "02", "03", "04")}
    assert told["votes"].keys() == {"there", "expected", "is_majority"}
    assert "the file has m1, m2, m3" in told["lacking"][0]
