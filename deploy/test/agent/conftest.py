"""The office of the tests of `office agent`: the doors of every kind over four shards, and the agent."""
from __future__ import annotations

from collections.abc import Iterator

import pytest

from agent.running import Agent
from agent.running import made as running
from support.callers import Caller
from support.world import World


@pytest.fixture(scope="package")
def agent(tmp_path_factory: pytest.TempPathFactory) -> Iterator[Agent]:
    """The office and its agent, which the tests share."""
    one = running(tmp_path_factory.mktemp("office"))
    try:
        yield one
    finally:
        one.end()


@pytest.fixture
def world(agent: Agent) -> World:
    """The office alone."""
    return agent.world


@pytest.fixture
def script(agent: Agent) -> Caller:
    """A script on this machine."""
    return agent.script()


@pytest.fixture
def ada(agent: Agent) -> Caller:
    """An operator, by certificate."""
    return agent.at("operators", "ada")


@pytest.fixture
def shop(agent: Agent) -> Caller:
    """A shop, by certificate."""
    return agent.at("shops", "shop-8")


@pytest.fixture
def audit(agent: Agent) -> Caller:
    """An operator who only reads."""
    return agent.at("operators", "audit")
