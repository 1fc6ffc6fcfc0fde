"""Failovers by the cluster itself, under gateways that ask at the office's address: what they see, and
what has to be true afterwards."""
from __future__ import annotations

import contextlib
import dataclasses
import statistics
import time
from collections import Counter
from collections.abc import Iterable, Iterator

from support.gateways import Account
from support.served import BOOKS
from support.uncut import Rows, Uncut, rows_of
from support.waiting import until

from machines import page, setup
from machines.asked import Asked
from machines.site import SHARDS, Site

# Where a table's rows have a moment, from the first column on: each shard has its machine's clock.
MOMENTS = {"meta": 3, "accounts": 2, "buckets": 2, "sessions": 3, "charges": 2}
MOMENT, SECONDS, LOOKS, CALM = 1_767_607_200, 900, 1.0, 5.0
# Where a copy of a shard lies in the machine that made it.
COPY = "/var/tmp/copy.db"
# What DRBD says of a comparison, once all of them have ended.
COMPARED = "until ! grep -q cs:Verify /proc/drbd; do sleep 1; done; grep -o 'oos:[0-9]*' /proc/drbd"


class Failovers:
    """A site, its gateways, and what happened so far."""

    def __init__(self, site: Site) -> None:
        self.site, self.gateways = site, Asked(site)
        # Seconds without an answer of a shard that failed over, and statuses that weren't 200.
        self.silences: list[float] = []
        self.others = Counter[int]()
        self.repeated = 0

    def serving(self) -> str:
        """The machine that serves most of the shards."""
        return statistics.mode(setup.served(self.site).values())

    def has_majority(self, name: str) -> bool:
        """Whether a machine sees a majority."""
        return "Quorate:          Yes" in self.site.sh(name, "corosync-quorumtool -s || :")

    def written(self, name: str) -> list[str]:
        """What DRBD has written to a machine's volumes."""
        return self.site.sh(name, "grep -o 'dw:[0-9]*' /proc/drbd").split()

    def served_by(self, name: str) -> list[str]:
        """The shards that a machine serves."""
        return [shard for shard, where in setup.served(self.site).items() if where == name]

    @contextlib.contextmanager
    def asking(self) -> Iterator[float]:
        """Gateways ask meanwhile, for some seconds before and after what happens; the moment at which
        it begins."""
        self.gateways.start()
        try:
            time.sleep(CALM)
            yield time.monotonic()
            time.sleep(CALM)
        finally:
            self.gateways.end()

    def power_fails(self, name: str) -> None:
        """A machine loses its power while gateways ask, and what it served is served again."""
        lost = self.served_by(name)
        with self.asking() as begun:
            self.site.cut(name)
            self.wait_for_answers(f"{name} lost its power", begun, lost)

    def wait_for_answers(
        self, what: str, begun: float, lost: Iterable[str], since: float | None = None
    ) -> None:
        """Waits until each shard has answered, since what happened or a later moment; for those that
        were lost the seconds count."""
        gateways, moment = self.gateways, since or begun + 1
        for shard in SHARDS:
            until(lambda: gateways.answers(shard, moment), f"shard {shard}", SECONDS, LOOKS)
        silent = {shard: gateways.silence(shard, begun) for shard in SHARDS}
        self.silences += [silent[shard] for shard in lost]
        told = ", ".join(f"{shard} {silent[shard]:.0f} s" for shard in SHARDS)
        statuses = dict(Counter(gateways.others))
        print(f"{what}: without an answer {told}; other statuses {statuses}", flush=True)
        self.others.update(gateways.others)
        gateways.others.clear()

    def come_back(self, name: str) -> None:
        """The machine gets power again, and its copies are brought into step."""
        self.site.power(name)
        self.site.machines[name].wait()
        setup.whole(self.site)

    def stand_by(self, name: str, is_by: bool = True) -> None:
        """A machine is put by for maintenance, and serves nothing, or is taken back."""
        text = page.section("Failover")
        line = page.line(text, f"crm_standby -N m1 {'-v on' if is_by else '-D'}")
        self.site.sh("m3", line.replace("m1", name))
        if is_by:
            until(lambda: self.has_given_up(name), f"{name} to give its shards up", SECONDS, 3)

    def has_given_up(self, name: str) -> bool:
        """Whether each shard is served, and none on this machine."""
        homes = setup.served(self.site)
        return len(homes) == len(SHARDS) and name not in homes.values()

    def go_home(self, shard: str, name: str) -> None:
        """A shard is brought back to a machine by the page's lines."""
        text = page.section("The way back")
        move = page.line(text, "crm_resource --move -r shard01 -N m1")
        self.site.sh("m3", move.replace("01", shard).replace("m1", name))
        until(lambda: setup.served(self.site).get(shard) == name, f"{shard} at home", SECONDS, 3)
        clear = page.line(text, "crm_resource --clear -r shard01")
        self.site.sh("m3", clear.replace("01", shard))
        setup.whole(self.site)

    def right(self) -> None:
        """Each acknowledged command has its first answer, rows are those of the answers, and both
        copies of each shard are the same, block by block; nobody asks meanwhile. An answer is waited
        for as after a failover: a machine that has no time may be fenced at any moment."""
        gateways = self.gateways
        gateways.settle(SECONDS)
        assert gateways.repeat(seconds=SECONDS) == gateways.answered
        self.repeated = gateways.answered
        for shard, name in setup.served(self.site).items():
            self.compare(shard, name)
            line = page.line(page.section("The way back"), "drbdadm verify ocs-01")
            self.site.sh(name, line.replace("01", shard))
            assert set(self.site.sh(name, COMPARED).split()) == {"oos:0"}

    def compare(self, shard: str, name: str) -> None:
        """A shard's rows on a machine are those of one that was asked the same and that nothing
        happened to."""
        path = f"/var/lib/ocs/{shard}/{shard}.db"
        found = [self.site.machines[name].file(path + more) for more in ("", "-wal")]
        wanted = self.uncut(self.gateways.of(shard))
        assert without_moments(rows_of(found)) == without_moments(wanted)

    def uncut(self, accounts: Iterable[Account]) -> Rows:
        """The rows of a shard that was asked what these accounts acknowledged, and that nothing
        happened to."""
        folder = self.site.place / f"uncut-{time.monotonic_ns()}"
        folder.mkdir()
        uncut = Uncut(folder, BOOKS[0])
        uncut.start(MOMENT)
        try:
            for account in accounts:
                uncut.follow(account)
            return uncut.rows()
        finally:
            uncut.end()

    def copied(self, shard: str, name: str) -> tuple[Rows, dict[str, int]]:
        """The rows of a copy of a shard that a machine makes, and how many commands each account had
        acknowledged before it was begun."""
        before = {one.number: len(one.acknowledged) for one in self.gateways.of(shard)}
        self.site.sh(name, f"office backup {shard} {COPY}")
        return rows_of([self.site.machines[name].file(COPY), b""]), before

    def is_copy(self, shard: str, rows: Rows, before: dict[str, int]) -> None:
        """The rows are those after the first commands of each account, and after all that were
        acknowledged before; nobody asks any more."""
        there = [row[:4] for row in rows["answers"]]
        first = list[Account]()
        for account in self.gateways.of(shard):
            count = sum(1 for key in there if key[0] == account.number)
            asked = account.acknowledged[:count]
            assert before[account.number] <= count == len(asked), (account.number, before, count)
            assert all(command.key in there for command, _ in asked)
            first.append(dataclasses.replace(account, acknowledged=asked))
        assert without_moments(rows) == without_moments(self.uncut(first))

    def told(self) -> str:
        """What happened so far."""
        return (
            f"{self.gateways.answered} acknowledged commands, {self.repeated} asked again; "
            f"{len(self.silences)} shards failed over, seconds without an answer: median "
            f"{statistics.median(self.silences):.0f}, worst {max(self.silences):.0f}; other statuses "
            f"{dict(self.others)}; {self.site.unflushed} writes that weren't flushed"
        )


def without_moments(rows: Rows) -> Rows:
    """The rows without their moments, in order."""
    made: Rows = {}
    for table, each in rows.items():
        at = MOMENTS.get(table)
        cut = each if at is None else [row[:at] + row[at + 1 :] for row in each]
        made[table] = sorted(cut, key=repr)
    return made
