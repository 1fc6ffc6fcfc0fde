"""What subscribers ask for in a month, by chance: events, sessions with reports, refunds, checks."""
from __future__ import annotations

import random
from collections.abc import Iterable
from typing import Any

from month.asking import Asked
from month.model import Body

# The unit of each rating group, and the most that is asked for at once.
GROUPS = {
    10: ("CC-Time", 400),
    20: ("CC-Total-Octets", 12 << 20),
    30: ("CC-Service-Specific-Units", 2),
    40: ("CC-Service-Specific-Units", 3),
}
SERVICES = "Multiple-Services-Credit-Control"
INITIAL, UPDATE, TERMINATION, EVENT = 1, 2, 3, 4


class Traffic:
    """Subscribers, and the sessions that they have."""

    def __init__(self, seed: int, accounts: Iterable[str]) -> None:
        self.chance, self.accounts = random.Random(seed), list(accounts)
        self.sessions: dict[str, tuple[str, int, list[int]]] = {}

    def some(self, share: float) -> list[str]:
        """So many of the subscribers."""
        return [one for one in self.accounts if self.chance.random() < share]

    def events(self, share: float, name: str) -> list[Asked]:
        """An event of each of some."""
        return [self.event(account, f"{account};{name}") for account in self.some(share)]

    def event(self, account: str, session: str) -> Asked:
        """A debit; at times a refund, a check or an enquiry."""
        action = self.chance.choices((0, 1, 2, 3), (85, 5, 6, 4))[0]
        told: Body = head(account, session, EVENT, 0) | {"Requested-Action": action}
        if action == 1:
            value = {"Value-Digits": self.chance.randint(1, 90), "Exponent": -2}
            money = {"CC-Money": {"Currency-Code": 978, "Unit-Value": value}}
            return Asked(account, "POST", "/ccr", told | {"Requested-Service-Unit": money})
        group = self.chance.choice(sorted(GROUPS))
        return Asked(account, "POST", "/ccr", told | {SERVICES: [self.wanted(group)]})

    def begin(self, share: float, name: str) -> list[Asked]:
        """A session of each of some."""
        made = []
        for account in self.some(share):
            groups = self.chance.sample(sorted(GROUPS)[:3], self.chance.choice((1, 1, 2)))
            self.sessions[account] = (f"{account};{name}", 0, groups)
            services = [self.wanted(group) for group in groups]
            told = head(account, f"{account};{name}", INITIAL, 0) | {SERVICES: services}
            made.append(Asked(account, "POST", "/ccr", told))
        return made

    def go_on(self, kind: int) -> list[Asked]:
        """A report in each session, which is its last one where `kind` says so."""
        made = []
        for account, (session, number, groups) in list(self.sessions.items()):
            services = [self.reported(group, kind) for group in groups]
            told = head(account, session, kind, number + 1) | {SERVICES: services}
            made.append(Asked(account, "POST", "/ccr", told))
            self.sessions[account] = session, number + 1, groups
        if kind == TERMINATION:
            self.sessions = {}
        return made

    def wanted(self, group: int) -> Body:
        """A service with units that are asked for; at times the group's own slice."""
        member, most = GROUPS[group]
        units = {} if self.chance.random() < 0.2 else {member: self.chance.randint(1, most)}
        return {"Rating-Group": group, "Requested-Service-Unit": units}

    def reported(self, group: int, kind: int) -> Body:
        """A service with used units, some of them from after a change of the tariff."""
        member, most = GROUPS[group]
        used: list[Body] = [{member: self.chance.randint(0, max(1, most // 2))}]
        if self.chance.random() < 0.3:
            used.append(
                {member: self.chance.randint(1, max(1, most // 3)), "Tariff-Change-Usage": 1}
            )
        told: Body = {"Rating-Group": group, "Used-Service-Unit": used}
        return told if kind == TERMINATION else told | self.wanted(group)


def head(account: str, session: str, kind: int, number: int) -> dict[str, Any]:
    """What a request begins with."""
    return {
        "Session-Id": session,
        "CC-Request-Type": kind,
        "CC-Request-Number": number,
        "Subscription-Id": {"Subscription-Id-Type": 0, "Subscription-Id-Data": account},
    }
