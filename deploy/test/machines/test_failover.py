"""Failover by the cluster itself: a site of machines with Debian's Pacemaker, Corosync and DRBD, set up
by MACHINES.md's own blocks, and fenced by `fence_ipmilan` over a stand-in for its board.

OFFICE_FAILOVERS has another number of failovers."""
from __future__ import annotations

import os
import time
from collections.abc import Callable, Iterator

import pytest
from support.waiting import until

from machines import setup
from machines.failovers import Failovers
from machines.site import SHARDS, Site

pytestmark = pytest.mark.slow
OTHER = {"m1": "m2", "m2": "m1"}
# Seconds until a machine that is alone has stopped what it can; and longer than DRBD's script would wait
# before it has that machine write again.
CALM, PATIENCE = 20, 100
FAILOVERS = int(os.environ.get("OFFICE_FAILOVERS", "4"))
Record = Callable[[str, object], None]


@pytest.fixture(scope="module", name="run")
def a_run(tmp_path_factory: pytest.TempPathFactory) -> Iterator[Failovers]:
    """A site that is set up, with gateways whose accounts are open."""
    site = Site(tmp_path_factory.mktemp("site"))
    try:
        setup.set_up(site)
        run = Failovers(site)
        run.gateways.open()
        yield run
    finally:
        site.end()


def test_a_shard_is_copied_by_the_machine_that_does_not_serve_it(run: Failovers) -> None:
    homes = setup.served(run.site)
    with run.asking():
        copies = {shard: run.copied(shard, OTHER[homes[shard]]) for shard in SHARDS}
        told = run.site.sh("m1", "office audit 2>&1")
    run.gateways.settle()
    for shard, (rows, before) in copies.items():
        run.is_copy(shard, rows, before)
    assert "findings 0 in 2 databases" in told
    assert setup.served(run.site) == homes


def test_the_machine_that_serves_loses_its_power(run: Failovers, record_property: Record) -> None:
    for _ in range(FAILOVERS):
        name = run.serving()
        run.power_fails(name)
        run.come_back(name)
        run.right()
    record_property("failovers", run.told())


def test_the_link_alone_is_pulled(run: Failovers) -> None:
    name = run.serving()
    with run.asking() as begun:
        run.site.cable("l", name, False)
        run.wait_for_answers(f"{name}'s link was pulled", begun, ())
        run.site.cable("l", name, True)
    setup.whole(run.site)
    assert not run.site.board.off_since(begun)
    run.right()


def test_a_machine_that_nobody_sees_serves_no_more(run: Failovers, record_property: Record) -> None:
    """Its cables are pulled, and its fence device doesn't answer: it writes nothing, however long that
    takes, and the other serves once it is known to be off."""
    name, board = run.serving(), run.site.board
    lost = run.served_by(name)
    with run.asking() as begun:
        board.is_there.clear()
        for card in "gl":
            run.site.cable(card, name, False)
        until(lambda: not run.has_majority(name), f"{name} to be alone", 600, 1)
        time.sleep(CALM)
        alone, written = time.monotonic(), run.written(name)
        time.sleep(PATIENCE)
        assert run.written(name) == written and not board.off_since(begun)
        assert not any(run.gateways.answers(shard, alone) for shard in lost)
        board.is_there.set()
        run.wait_for_answers(f"{name}'s cables were pulled", begun, lost, alone)
    assert board.off_since(begun) == {name}
    for card in "gl":
        run.site.cable(card, name, True)
    run.come_back(name)
    run.right()
    record_property("all", run.told())


def test_without_a_majority_nothing_is_served(run: Failovers) -> None:
    name = run.serving()
    others = [each for each in run.site.machines if each != name]
    with run.asking() as begun:
        for other in others:
            run.site.cut(other)
        until(lambda: not run.has_majority(name), f"{name} to be alone", 600, 1)
        time.sleep(CALM)
        alone, written = time.monotonic(), run.written(name)
        time.sleep(PATIENCE)
        assert run.written(name) == written
        assert not any(run.gateways.answers(shard, alone) for shard in SHARDS)
        run.site.power("m3")
        run.wait_for_answers(f"{name} was without a majority", begun, SHARDS, alone)
    for other in others:
        run.come_back(other)
    run.right()


def test_a_machine_gives_its_shards_up_for_maintenance(run: Failovers) -> None:
    name = run.serving()
    with run.asking() as begun:
        run.stand_by(name)
        run.wait_for_answers(f"{name} was put by", begun, SHARDS)
        run.stand_by(name, False)
        setup.whole(run.site)
    assert not run.site.board.off_since(begun)
    run.right()


def test_a_shard_is_brought_home(run: Failovers, record_property: Record) -> None:
    away = OTHER[run.serving()]
    with run.asking():
        run.go_home("01", away)
    assert setup.served(run.site)["01"] == away
    run.right()
    record_property("all", run.told())
