"""What the tests of the bridge share: the built bridge, an office on a Monday at 10, a stub.

The office and the bridge are started once. A test that changes them puts them back; one that counts
what a bridge has done starts a bridge of its own."""
from __future__ import annotations

import pathlib
import signal
from collections.abc import Callable, Iterator

import pytest
from diameter.bridge import MONDAY_10, Bridge, Office, Stub, built

Starts = Callable[..., Bridge]


@pytest.fixture(scope="session")
def home(tmp_path_factory: pytest.TempPathFactory) -> pathlib.Path:
    """The folder of the built bridge."""
    return built(tmp_path_factory.mktemp("ocs-diameter"))


@pytest.fixture(scope="session")
def office(tmp_path_factory: pytest.TempPathFactory) -> Iterator[Office]:
    """Two shards behind the doors, on a Monday at 10 in the peak."""
    one = Office(tmp_path_factory.mktemp("office"), MONDAY_10)
    try:
        yield one.up()
    finally:
        one.end()


@pytest.fixture(scope="session")
def bridge(
    home: pathlib.Path, office: Office, tmp_path_factory: pytest.TempPathFactory
) -> Iterator[Bridge]:
    """A bridge with its defaults over the office."""
    one = Bridge(home, tmp_path_factory.mktemp("bridge"), office.doors["gateways"])
    try:
        yield one.start()
    finally:
        one.stop(signal.SIGKILL)


@pytest.fixture(scope="module")
def starts(home: pathlib.Path, tmp_path_factory: pytest.TempPathFactory) -> Iterator[Starts]:
    """Starts a bridge over a port; it ends with the module."""
    running: list[Bridge] = []

    def start(port: int, **members: str) -> Bridge:
        running.append(Bridge(home, tmp_path_factory.mktemp("bridge"), port, **members))
        return running[-1].start()

    try:
        yield start
    finally:
        for each in running:
            each.stop(signal.SIGKILL)


@pytest.fixture
def stub() -> Iterator[Stub]:
    """An office that answers 2001 until it is told otherwise."""
    one = Stub()
    try:
        yield one
    finally:
        one.stop()
