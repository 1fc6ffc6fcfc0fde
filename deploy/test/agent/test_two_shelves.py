"""Books that come, where not each shard has them. After the tests of sums: an audit would tell it."""
from __future__ import annotations

import time

from agent.running import Agent
from support.callers import Caller
from support.world import TOP, done, program

LATER = TOP / "examples/later-book.toml"
FROM = int(time.time()) + 40 * 86_400


def test_a_book_that_comes_and_a_shard_that_was_forgotten(agent: Agent, ada: Caller) -> None:
    """Shard 03 has a book that the others don't have."""
    world = agent.world
    world.kill(3)
    done(program(), "book", world.database(3), LATER, "--from", FROM)
    world.start(3)
    agent.kill()
    agent.start()
    told = ada.ask("GET", "/office/agent/books").body["shelves"]
    assert [shelf["shards"] for shelf in told] == [["01", "02", "04"], ["03"]]
    now, later = told[1]["books"]
    assert (now["holds"], later["holds"], later["starts"]) == (True, False, FROM)
    assert later["text"] == LATER.read_text()
