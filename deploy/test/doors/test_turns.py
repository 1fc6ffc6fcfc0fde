"""Turns and rates: how much of an office one caller may have."""
from __future__ import annotations

import collections
import threading
from collections.abc import Callable

import pytest
from support.callers import Caller, asked, debit, opened
from support.waiting import until
from support.world import World

ACCOUNT = "70008"


@pytest.fixture(scope="module")
def home(world: World) -> int:
    """The shard of the account, which has money."""
    script = Caller(world, world.place / "office.sock")
    opened(script, ACCOUNT, 90_000_000)
    return int(script.ask("GET", f"/accounts/{ACCOUNT}").shard)


class Asking:
    """Debits that gateways ask for at once, in the order in which they were answered."""

    def __init__(self, at: Callable[..., Caller]) -> None:
        self.at, self.ended, self.lock = at, list[tuple[str, int]](), threading.Lock()
        self.threads: list[threading.Thread] = []

    def ask(self, name: str, count: int) -> None:
        """A gateway asks for so many."""
        for one in range(count):
            thread = threading.Thread(target=self.one, args=(name, f"{name}-{one}-{count}"))
            self.threads.append(thread)
            thread.start()

    def one(self, name: str, session: str) -> None:
        """One debit."""
        status = (
            self.at("gateways", name)
            .patient(60)
            .ask("POST", "/ccr", debit(ACCOUNT, session))
            .status
        )
        with self.lock:
            self.ended.append((name, status))

    def all(self) -> list[tuple[str, int]]:
        """All answers."""
        for thread in self.threads:
            thread.join()
        return self.ended


def test_one_who_asks_much_doesnt_keep_another_waiting(
    world: World, at: Callable[..., Caller], home: int
) -> None:
    asking = Asking(at)
    with world.still(home):
        asking.ask("pgw-1", 40)
        until(
            lambda: len(asking.ended) >= 20 and world.waiting() == 19,
            "20 refused, 19 that wait",
        )
        assert collections.Counter(asking.ended) == {("pgw-1", 429): 20}
        asking.ask("pgw-2", 2)
        until(lambda: world.waiting() == 21, "21 that wait")
    answered = [name for name, status in asking.all() if status == 200]
    assert len(answered) == 22
    assert max(at for at, name in enumerate(answered) if name == "pgw-2") <= 6


def test_a_rate(world: World, at: Callable[..., Caller]) -> None:
    one, codes = at("shops", "shop-7").connection(), collections.Counter[int]()
    while not codes[429] and codes.total() < 2000:
        codes[asked(one, "GET", f"/accounts/{ACCOUNT}").status] += 1
    one.close()
    assert set(codes) == {200, 429} and codes[200] >= 30
    whys = {line["why"] for line in world.lines() if line.get("who") == "shop-7"}
    assert "rate" in whys
