"""Gateways that ask a shard and keep each answer, for tests of faults.

Each account has one command under way at most, so the commands of an account have one order. A
command is *acknowledged* once its whole answer with status 200 was read; the bytes of one that
wasn't are sent again, until they are."""
from __future__ import annotations

import copy
import http.client
import json
import random
import threading
import time
from collections.abc import Callable, Mapping
from dataclasses import dataclass, field

from support.waiting import until

FUNDS = 10**12
GROUP = 30
BOOK = """\
zone = "+00:00"
currency = 978
validity = {validity}
periods = ["always"]
[[week]]
period = "always"
days = [1, 2, 3, 4, 5, 6, 7]
from = "00:00"
to = "24:00"
[[group]]
id = 30
unit = "events"
block = 1
slice = 1
max_grant = 100
cycle = "none"
final = "terminate"
price = [{{period = "always", tiers = [{{price = {price}}}]}}]
"""
Connect = Callable[[], http.client.HTTPConnection]


@dataclass(frozen=True)
class Command:
    """A path, the bytes that are sent there, and the key of the answer's row."""

    path: str
    body: str
    key: tuple[str, int, str, int]


@dataclass
class Account:
    """An account's acknowledged commands with their answers, in their order, and the one that is
    under way."""

    number: str
    acknowledged: list[tuple[Command, str]] = field(default_factory=list)
    pending: Command | None = None
    session: tuple[str, int] | None = None
    held: int = 0
    count: int = 0

    def next(self, chance: random.Random) -> Command:
        """The next command: a session goes on or ends or begins, or there is a debit or a
        credit."""
        self.count += 1
        kind = chance.random()
        if kind > 0.9:
            return self.credit(chance.randint(1, 10**6), f"c{self.count}")
        if kind < 0.25:
            return self.debit(chance.randint(1, 3))
        units, used = chance.randint(1, 4), chance.randint(0, self.held)
        if not self.session:
            return self.request(f"s{self.count}", 1, 0, {"Requested-Service-Unit": count(units)})
        name, number = self.session
        services: dict[str, object] = {"Used-Service-Unit": [count(used)]}
        if kind < 0.7:
            asked = services | {"Requested-Service-Unit": count(units)}
            return self.request(name, 2, number + 1, asked)
        return self.request(name, 3, number + 1, services)

    def credit(self, amount: int, reference: str) -> Command:
        """Money for the account."""
        text = json.dumps({"Amount": amount, "Reference": reference})
        path = f"/accounts/{self.number}/credits"
        return Command(path, text, (self.number, 2, reference, 0))

    def debit(self, units: int) -> Command:
        """A debit in one command."""
        services = {"Requested-Service-Unit": count(units)}
        return self.request(f"d{self.count}", 4, 0, services)

    def request(self, name: str, kind: int, number: int, services: Mapping[str, object]) -> Command:
        """A credit-control request."""
        service: dict[str, object] = {"Rating-Group": GROUP, **services}
        body: dict[str, object] = {
            "Session-Id": name,
            "CC-Request-Type": kind,
            "CC-Request-Number": number,
            "Subscription-Id": {
                "Subscription-Id-Type": 0,
                "Subscription-Id-Data": self.number,
            },
            "Multiple-Services-Credit-Control": [service],
        }
        body |= {"Requested-Action": 0} if kind == 4 else {}
        return Command("/ccr", json.dumps(body), (self.number, 1, name, number))

    def acknowledge(self, answer: str) -> None:
        """The command that was under way has this answer."""
        assert self.pending
        self.acknowledged.append((self.pending, answer))
        told = json.loads(answer)
        kind, is_good = told.get("CC-Request-Type"), told["Result-Code"] == 2001
        if kind in (1, 2):
            _, _, name, number = self.pending.key
            groups = told.get("Multiple-Services-Credit-Control", [{}])
            granted = groups[0].get("Granted-Service-Unit", {})
            self.session = (name, number) if is_good else None
            self.held = granted.get("CC-Service-Specific-Units", 0)
        elif kind == 3:
            self.session, self.held = None, 0
        self.pending = None


def count(units: int) -> dict[str, int]:
    """So many units of the group."""
    return {"CC-Service-Specific-Units": units}


class Door:
    """A connection that is opened again where it broke."""

    def __init__(self, connect: Connect) -> None:
        self.connect = connect
        self.peer: http.client.HTTPConnection | None = None

    def ask(self, method: str, path: str, body: str = "") -> tuple[int, str]:
        """A status and a text; status 0 where no whole answer came."""
        try:
            self.peer = self.peer or self.connect()
            self.peer.request(method, path, body, {"Content-Type": "application/json"})
            answer = self.peer.getresponse()
            return answer.status, answer.read().decode()
        except (OSError, http.client.HTTPException) as fault:
            self.close()
            return 0, str(fault)

    def close(self) -> None:
        """Closes the connection."""
        if self.peer:
            self.peer.close()
        self.peer = None


class Gateways:
    """Threads that ask while a test breaks something; `connect` makes a connection to the door."""

    def __init__(self, connect: Connect, gateways: int, each: int, seed: str) -> None:
        self.connect, self.seed, self.round = connect, seed, 0
        numbers = [[49000 + each * at + one for one in range(each)] for at in range(gateways)]
        self.shares = [[Account(str(number)) for number in mine] for mine in numbers]
        self.accounts = [account for mine in self.shares for account in mine]
        self.stop = threading.Event()
        self.threads: list[threading.Thread] = []
        # Statuses that weren't 200.
        self.others: list[int] = []
        # Of each request: when it was sent and when its answer was there, its status, its account.
        self.asked: list[tuple[float, float, int, str]] = []
        self.sweeps, self.is_sweeping = 0, False

    @property
    def answered(self) -> int:
        """How many commands are acknowledged."""
        return sum(len(account.acknowledged) for account in self.accounts)

    def door(self) -> Door:
        """What a gateway asks."""
        return Door(self.connect)

    def take(self, shares: list[list[Account]]) -> None:
        """Goes on with accounts that were asked before, of their own each time."""
        self.shares = copy.deepcopy(shares)
        self.accounts = [account for mine in self.shares for account in mine]

    def open(self) -> None:
        """Opens the accounts, and gives each its first money."""
        door = self.door()
        for account in self.accounts:
            status, told = door.ask("PUT", f"/accounts/{account.number}")
            assert status == 200, (status, told)
            account.pending = account.credit(FUNDS, "funds")
            assert self.once(door, account), self.others
        door.close()

    def start(self) -> None:
        """The gateways ask until `end`."""
        self.round += 1
        self.stop.clear()
        shares = enumerate(self.shares)
        works = [threading.Thread(target=self.work, args=(mine, at)) for at, mine in shares]
        self.threads = [*works, threading.Thread(target=self.sweep)]
        for thread in self.threads:
            thread.start()

    def work(self, mine: list[Account], at: int) -> None:
        """One gateway: asks for its accounts by chance."""
        chance = random.Random(f"{self.seed} {self.round} {at}")
        door = self.door()
        while not self.stop.is_set():
            account = chance.choice(mine)
            account.pending = account.pending or account.next(chance)
            self.once(door, account)
        door.close()

    def sweep(self) -> None:
        """Sweeps once a second or so; sweeps have no order with the commands."""
        door = self.door()
        while not self.stop.wait(1.0):
            self.is_sweeping = True
            if door.ask("POST", "/sweep")[0] == 200:
                self.sweeps, self.is_sweeping = self.sweeps + 1, False
        door.close()

    def once(self, door: Door, account: Account) -> bool:
        """Sends what is under way for an account; whether it is acknowledged now."""
        assert account.pending
        begun = time.monotonic()
        status, told = door.ask("POST", account.pending.path, account.pending.body)
        self.asked.append((begun, time.monotonic(), status, account.number))
        if status != 200:
            self.others.append(status)
            self.stop.wait(0.2)
            return False
        account.acknowledge(told)
        return True

    def end(self) -> None:
        """The gateways ask nothing more; what wasn't answered stays under way."""
        self.stop.set()
        for thread in self.threads:
            thread.join()

    def settle(self, seconds: float = 300.0) -> int:
        """Sends what is under way until each is answered; how many commands there were."""
        door = self.door()
        if self.is_sweeping:
            until(lambda: door.ask("POST", "/sweep")[0] == 200, "the sweep", seconds)
            self.sweeps, self.is_sweeping = self.sweeps + 1, False
        waiting = [account for account in self.accounts if account.pending]
        for account in waiting:
            until(lambda: self.once(door, account), f"account {account.number}", seconds)
        door.close()
        return len(waiting)

    def repeat(self, last: int | None = None, seconds: float = 300.0) -> int:
        """Asks acknowledged commands again, of each account the last ones or all, and sees that
        each has its first answer byte for byte; how many there were."""
        door = self.door()
        wanted = slice(-last if last else None, None)
        jobs = [job for one in self.accounts for job in one.acknowledged[wanted]]
        for command, answer in jobs:
            again = list[str]()
            until(lambda: is_answered(door, command, again), f"{command.key} again", seconds)
            assert again == [answer], (command, answer, again)
        door.close()
        return len(jobs)


def is_answered(door: Door, command: Command, told: list[str]) -> bool:
    """Sends a command, and adds the text of its answer where it has one."""
    status, text = door.ask("POST", command.path, command.body)
    told += [text] if status == 200 else []
    return status == 200
