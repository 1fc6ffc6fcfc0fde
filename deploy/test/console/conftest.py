"""An office with a month of charges, and browsers at its doors."""
from __future__ import annotations

import os
import pathlib
from collections.abc import Iterator

import pytest
from support.world import World

from console.behind import Agent
from console.office import made
from console.person import Person


@pytest.fixture(scope="package")
def world(tmp_path_factory: pytest.TempPathFactory) -> Iterator[World]:
    """The office that the tests of the page share."""
    one = made(tmp_path_factory.mktemp("office"))
    try:
        yield one
    finally:
        one.end()


def person(world: World, place: pathlib.Path, door: str, name: str = "") -> Iterator[Person]:
    """Somebody at a door, against whom the browser has nothing at the end."""
    one = Person(place / "browser")
    try:
        one.go_to(world.doors[door], name)
        yield one
        assert one.faults() == []
    finally:
        one.end()


@pytest.fixture(scope="package")
def operator(world: World, tmp_path_factory: pytest.TempPathFactory) -> Iterator[Person]:
    """An operator of this machine."""
    yield from person(world, tmp_path_factory.mktemp("operator"), "desk")


@pytest.fixture(scope="package")
def shop(world: World, tmp_path_factory: pytest.TempPathFactory) -> Iterator[Person]:
    """A shop of this machine."""
    yield from person(world, tmp_path_factory.mktemp("shop"), "counter")


@pytest.fixture(scope="package")
def reader(world: World, tmp_path_factory: pytest.TempPathFactory) -> Iterator[Person]:
    """A revenue officer, who only reads, by name and password."""
    yield from person(world, tmp_path_factory.mktemp("reader"), "operators", "rosa")


@pytest.fixture(scope="module")
def agent(world: World) -> Iterator[Agent]:
    """The agent is up."""
    one = Agent(world)
    one.start()
    yield one
    one.kill()
    one.socket.unlink(missing_ok=True)


@pytest.fixture(scope="package")
def pictures(tmp_path_factory: pytest.TempPathFactory) -> pathlib.Path:
    """Where pictures are left."""
    named = os.environ.get("OFFICE_PICTURES")
    folder = pathlib.Path(named) if named else tmp_path_factory.mktemp("pictures")
    folder.mkdir(exist_ok=True)
    return folder
