"""What an answer means while a part of a pair is ill (the table of MACHINES.md), by DRBD between two
machines and without a cluster: a second disk that is slow, one that fails, the serving machine's own disk
that fails, a promotion while the first lives, and two that were written to while apart."""
from __future__ import annotations

import pathlib
import statistics
import time
from collections.abc import Iterator

import pytest
from support.gateways import Gateways
from support.waiting import until

from machines import page
from machines.pair import DEVICE, IN_STEP, Pair

pytestmark = pytest.mark.slow
SLOW = 0.02
MOUNTED = "/var/lib/ocs/01"


@pytest.fixture(name="pair")
def served(tmp_path: pathlib.Path) -> Iterator[Pair]:
    pair = Pair(tmp_path, "xfs")
    try:
        pair.make()
        pair.begin()
        yield pair
    finally:
        pair.end()


def asked(gateways: Gateways, seconds: float = 4) -> float:
    """The gateways ask for a while; the median of the milliseconds of an answer. Each was one."""
    begun = len(gateways.asked)
    gateways.start()
    time.sleep(seconds)
    until(lambda: len(gateways.asked) > begun + 40, "answers", 300)
    gateways.end()
    mine = gateways.asked[begun:]
    assert all(status == 200 for _, _, status, _ in mine), mine
    return 1000 * statistics.median(end - sent for sent, end, _, _ in mine)


def right(pair: Pair) -> None:
    """All that was acknowledged has its first answer, and the rows are those of the answers."""
    gateways = pair.served.gateways
    gateways.settle()
    assert gateways.repeat() == gateways.answered
    pair.served.compare(pair.serving)


def test_a_second_disk_that_is_slow(pair: Pair) -> None:
    before = asked(pair.served.gateways)
    pair.disks[pair.second].slow(SLOW)
    during = asked(pair.served.gateways)
    pair.second.sh("drbdadm disconnect ocs-01")
    alone = asked(pair.served.gateways)
    print(
        f"an answer: {before:.0f} ms, {during:.0f} with a second disk {SLOW * 1000:.0f} ms slower, "
        f"{alone:.0f} without it",
        flush=True,
    )
    assert during > before + 2 * SLOW * 1000 and alone < during
    right(pair)


def test_a_second_disk_that_fails_and_is_replaced(pair: Pair) -> None:
    pair.served.gateways.start()
    pair.disks[pair.second].fail()
    pair.serving.sh("until grep -q UpToDate/Diskless /proc/drbd; do sleep 0.2; done")
    pair.replace(pair.second)
    text = page.section("The way back")
    lines = [page.line(text, f"drbdadm {word} ocs-01") for word in ("create-md", "attach")]
    pair.second.sh(" && ".join(lines))
    pair.serving.sh(IN_STEP)
    pair.verify()
    pair.served.gateways.end()
    assert all(status == 200 for _, _, status, _ in pair.served.gateways.asked)
    right(pair)


def test_the_serving_machines_own_disk_fails(pair: Pair) -> None:
    pair.served.gateways.start()
    pair.disks[pair.serving].fail()
    pair.serving.sh("until grep -q Diskless/UpToDate /proc/drbd; do sleep 0.2; done")
    pair.served.gateways.end()
    asked(pair.served.gateways)
    right(pair)


def test_a_second_machine_is_not_promoted_while_the_first_lives(pair: Pair) -> None:
    status, told = pair.second.told("drbdadm primary ocs-01 2>&1", 600)
    assert status != 0 and b"Multiple primaries not allowed" in told, told
    status, told = pair.second.told("drbdadm primary --force ocs-01 2>&1", 600)
    assert status != 0, told
    asked(pair.served.gateways)
    right(pair)


def test_two_that_were_written_to_while_apart_wait_for_a_person(pair: Pair) -> None:
    text = page.section("The way back")
    asked(pair.served.gateways)
    pair.network.cable("l", pair.second.number, False)
    asked(pair.served.gateways)
    # By hand and by force: no cluster stands in the way here.
    pair.second.sh(f"drbdadm primary --force ocs-01 && mount -o nouuid {DEVICE} {MOUNTED}")
    pair.second.sh(f"echo > {MOUNTED}/written && umount {MOUNTED}")
    pair.network.cable("l", pair.second.number, True)
    for one in pair.machines:
        one.sh("until grep -q cs:StandAlone /proc/drbd; do sleep 0.2; done")
    asked(pair.served.gateways)
    pair.second.sh(
        "\n".join(
            page.line(text, line)
            for line in (
                "drbdadm secondary ocs-01",
                "drbdadm disconnect ocs-01",
                "drbdadm connect --discard-my-data ocs-01",
            )
        )
    )
    pair.serving.sh(page.line(text, "drbdadm connect ocs-01"))
    pair.serving.sh(IN_STEP)
    pair.verify()
    pair.served.gateways.end()
    right(pair)
