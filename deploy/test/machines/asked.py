"""Gateways that ask at the office's address, at its doors with TLS: credit-control requests at the
gateways' door, accounts and their money at the operators'."""
from __future__ import annotations

import itertools
import time

from support.gateways import Account, Door, Gateways

from machines.site import DOOR_OF_GATEWAYS, DOOR_OF_OPERATORS, Site
from office import settings, shards

COUNT, EACH = 8, 3
# Seconds between two requests of a gateway: a machine of a test has a tenth of a processor, and
# Pacemaker's agents, which are scripts, need it too.
PACE = 0.5


class Doors(Door):
    """A connection to each of both doors; a request goes to that of its path."""

    def __init__(self, site: Site) -> None:
        super().__init__(lambda: site.connect(DOOR_OF_GATEWAYS))
        self.operators = Door(lambda: site.connect(DOOR_OF_OPERATORS))

    def ask(self, method: str, path: str, body: str = "") -> tuple[int, str]:
        """A status and a text; status 0 where no whole answer came."""
        if path == "/ccr":
            return super().ask(method, path, body)
        return self.operators.ask(method, path, body)

    def close(self) -> None:
        """Closes both."""
        super().close()
        self.operators.close()


class Asked(Gateways):
    """The gateways of a site. No door takes a sweep: `office sweep` asks for it on a machine."""

    def __init__(self, site: Site) -> None:
        super().__init__(lambda: site.connect(DOOR_OF_GATEWAYS), COUNT, EACH, site.place.name)
        self.site = site
        homes = shards.Homes(settings.read(site.place / "office.toml"))
        self.homes = {one.number: homes.home(one.number).number for one in self.accounts}

    def door(self) -> Door:
        """What a gateway asks."""
        return Doors(self.site)

    def once(self, door: Door, account: Account) -> bool:
        """Sends what is under way for an account, and waits for the next; whether it is acknowledged
        now."""
        is_acknowledged = super().once(door, account)
        self.stop.wait(PACE)
        return is_acknowledged

    def sweep(self) -> None:
        """Nothing: see above."""

    def of(self, shard: str) -> list[Account]:
        """The accounts of a shard."""
        return [one for one in self.accounts if self.homes[one.number] == shard]

    def answers(self, shard: str, since: float) -> list[float]:
        """When answers of a shard came, from a moment on."""
        asked = list(self.asked)
        return [
            end
            for _, end, status, account in asked
            if status == 200 and end >= since and self.homes[account] == shard
        ]

    def silence(self, shard: str, since: float) -> float:
        """The longest time between two answers of a shard from a moment on; the moment itself counts
        as an answer, and so does now."""
        moments = sorted([since, *self.answers(shard, since), time.monotonic()])
        return max(after - before for before, after in itertools.pairwise(moments))
