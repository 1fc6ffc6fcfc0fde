"""The copies that the agent reads: made once for all who ask at once, and anew when they are too old."""
from __future__ import annotations

import concurrent.futures
from typing import Any

from agent.running import Agent
from support.callers import Caller, debit, opened
from support.waiting import until


def account(caller: Caller, number: str) -> dict[str, Any]:
    """What the agent says of an account."""
    told = caller.patient(90).ask("GET", f"/office/agent/account/{number}")
    assert told.status == 200, told.text
    return dict(told.body)


def test_who_ask_at_once_read_one_copy(agent: Agent, script: Caller) -> None:
    opened(script, "56001", 1_000_000)
    agent.kill()
    agent.start()
    with concurrent.futures.ThreadPoolExecutor(8) as pool:
        told = list(pool.map(lambda _: account(agent.at("operators", "ada"), "56001"), range(8)))
    assert len({one["as_of"] for one in told}) == 1


def test_what_is_too_old_is_made_anew(agent: Agent, ada: Caller, script: Caller) -> None:
    opened(script, "56002", 1_000_000)
    file = agent.world.place / "fresh.toml"
    file.write_text(agent.world.file.read_text().replace("fresh = 60", "fresh = 1"))
    agent.kill()
    agent.start(file)
    first = account(ada, "56002")
    script.ask("POST", "/ccr", debit("56002", "later"))
    until(lambda: account(ada, "56002")["as_of"] > first["as_of"], "another copy")
    later = account(ada, "56002")
    assert (len(first["charges"]), len(later["charges"])) == (0, 1)
    agent.kill()
    agent.start()


def test_an_agent_that_was_killed_leaves_no_copies(agent: Agent, ada: Caller) -> None:
    account(ada, "56001")
    agent.kill()
    agent.start()
    account(ada, "56001")
    (folder,) = agent.world.place.glob(".agent-*")
    assert [path.suffix for path in folder.iterdir()] == [".db"]
    assert list(agent.world.place.glob(".twin-*")) == []
