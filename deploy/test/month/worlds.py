"""Databases that the program made of requests of chance, for tests of words over copies.

`world(folder, seed)` is an office of one shard's database: accounts with credits that end, of scopes,
allowances and vouchers; sessions that end, go on or are left; debits and refunds; under two books."""
from __future__ import annotations

import contextlib
import http.client
import json
import os
import pathlib
import random
import socket
import subprocess
import tomllib
from collections.abc import Iterator
from typing import Any

from month.machine import TOP, program

BOOK, LATER = TOP / "examples/book.toml", TOP / "examples/later-book.toml"
BERLIN = TOP / "examples/berlin.toml"
BEGIN = 1_767_607_200  # Monday 2026-01-05 10:00 UTC
MEMBERS = {"time": "CC-Time", "octets": "CC-Total-Octets", "events": "CC-Service-Specific-Units"}
MOST_UNITS = {"CC-Time": 4000, "CC-Total-Octets": 400 << 20, "CC-Service-Specific-Units": 30}
VOUCHERS = {"000000000001": "5000000,30,", "000000000002": "250000,,10", "000000000003": "70,1,"}
SERVICES = "Multiple-Services-Credit-Control"


def ocs(*words: object) -> str:
    """What the program prints; its status must be 0 or 1."""
    asked = [os.environ.get("OCS") or program(), *map(str, words)]
    told = subprocess.run(asked, capture_output=True, text=True, check=False)
    assert told.returncode in (0, 1), told.stderr
    return told.stdout


class World:
    """A database, and chance."""

    def __init__(
        self,
        folder: pathlib.Path,
        seed: int,
        accounts: int = 8,
        book: pathlib.Path = BOOK,
        begin: int = BEGIN,
    ) -> None:
        self.chance, self.moment = random.Random(seed), begin
        told = tomllib.loads(book.read_text(encoding="utf-8"))
        self.members = {group["id"]: MEMBERS[group["unit"]] for group in told["group"]}
        self.path, self.lines = folder / "01.db", list[str]()
        self.accounts = [str(49_200 + at) for at in range(accounts)]
        self.sessions: dict[str, tuple[str, int, list[int]]] = {}
        ocs("init", self.path, book)
        for account in self.accounts:
            ocs("open", self.path, account, "--at", self.moment)
            self.gifts(account)

    def gifts(self, account: str) -> None:
        """Money and blocks, some with an end or a scope."""
        for at in range(self.chance.randint(1, 4)):
            until = self.moment + self.chance.randint(1, 20 * 3600)
            words = ["--until", until] if self.chance.random() < 0.5 else []
            if self.chance.random() < 0.3:
                scope = ["--scope", self.chance.choice(sorted(self.members))]
                blocks = self.chance.randint(1, 60)
                ocs(
                    "allow",
                    self.path,
                    account,
                    blocks,
                    f"a{at}",
                    *scope,
                    *words,
                    "--at",
                    self.moment,
                )
                continue
            scope = (
                ["--scope", self.chance.choice(sorted(self.members))]
                if self.chance.random() < 0.3
                else []
            )
            amount = self.chance.choice((300_000, 1_000_000, 5_000_000))
            ocs("credit", self.path, account, amount, f"c{at}", *scope, *words, "--at", self.moment)

    def plays(self, requests: int) -> None:
        """Requests of chance, by `replay`."""
        lines = []
        for turn in range(requests):
            self.moment += self.chance.choice((0, 1, 30, 60, 61, 600, 3000))
            lines.append(f"{self.moment} {json.dumps(self.request(turn))}")
        file = self.path.with_name("requests.in")
        file.write_text("\n".join(lines) + "\n", encoding="utf-8")
        ocs("replay", self.path, file)

    def later_book(self) -> None:
        """A later book from the next moment on."""
        self.moment += 7200
        ocs("book", self.path, LATER, "--from", self.moment)

    def request(self, turn: int) -> dict[str, Any]:
        """One request: an event, or a step of the account's session."""
        account = self.chance.choice(self.accounts)
        if self.chance.random() < 0.3:
            return self.event(account, f"{account};{self.moment};{turn}")
        if account not in self.sessions or self.chance.random() < 0.1:
            groups = self.chance.sample(sorted(self.members), self.chance.choice((1, 1, 2)))
            self.sessions[account] = (f'{account};"{turn}",{self.moment}', 0, groups)
            services = [{"Rating-Group": group, **self.wanted(group)} for group in groups]
            return self.made(account, 1, 0, services)
        session, number, groups = self.sessions[account]
        kind = 3 if self.chance.random() < 0.3 else 2
        services = [self.reported(group, kind) for group in groups]
        if kind == 3:
            del self.sessions[account]
        else:
            self.sessions[account] = (session, number + 1, groups)
        return self.made(account, kind, number + 1, services, session)

    def made(
        self, account: str, kind: int, number: int, services: object, session: str = ""
    ) -> dict[str, Any]:
        """A request of a session."""
        return {
            "Session-Id": session or self.sessions[account][0],
            "CC-Request-Type": kind,
            "CC-Request-Number": number,
            "Subscription-Id": {"Subscription-Id-Type": 0, "Subscription-Id-Data": account},
            SERVICES: services,
        }

    def wanted(self, group: int) -> dict[str, Any]:
        """Units that are asked for."""
        units = {} if self.chance.random() < 0.3 else {self.members[group]: self.units(group)}
        return {"Requested-Service-Unit": units}

    def units(self, group: int) -> int:
        """Units of a group."""
        return self.chance.randint(1, self.most(group))

    def most(self, group: int) -> int:
        """The most units of a group that are asked for at once."""
        return MOST_UNITS[self.members[group]]

    def bars(self) -> None:
        """An account is barred, asked and free again."""
        account = self.chance.choice(self.accounts)
        ocs("bar", self.path, account, "--at", self.moment)
        self.plays(30)
        ocs("unbar", self.path, account, "--at", self.moment)

    def redeems(self) -> None:
        """Vouchers are added, and some are redeemed."""
        file = self.path.with_name("vouchers.csv")
        rows = "".join(f"{code},{terms}\n" for code, terms in VOUCHERS.items())
        file.write_text("code,amount,days,scope\n" + rows, encoding="utf-8")
        ocs("import", self.path, file, "--at", self.moment)
        with served(self.path, self.moment) as connection:
            for code in list(VOUCHERS)[:2]:
                account = self.chance.choice(self.accounts)
                body = json.dumps({"Subscription-Id-Data": account, "Reference": f"v{code}"})
                connection.request("POST", f"/vouchers/{code}/redeem", body)
                assert "Bucket" in connection.getresponse().read().decode()

    def reported(self, group: int, kind: int) -> dict[str, Any]:
        """A service of an update or a termination."""
        told: dict[str, Any] = {"Rating-Group": group}
        if self.chance.random() < 0.85:
            told["Used-Service-Unit"] = [
                {self.members[group]: self.chance.randint(0, self.most(group) // 2)}
            ]
            if self.chance.random() < 0.2:
                tagged = {self.members[group]: 3, "Tariff-Change-Usage": self.chance.choice((0, 1))}
                told["Used-Service-Unit"].append(tagged)
        if kind == 2 and self.chance.random() < 0.8:
            told |= self.wanted(group)
        return told

    def event(self, account: str, session: str) -> dict[str, Any]:
        """A debit, or at times a refund."""
        told = {
            "Session-Id": session,
            "CC-Request-Type": 4,
            "CC-Request-Number": 0,
            "Subscription-Id": {"Subscription-Id-Type": 0, "Subscription-Id-Data": account},
        }
        if self.chance.random() < 0.15:
            value = {"Value-Digits": self.chance.randint(1, 90), "Exponent": -2}
            money = {"CC-Money": {"Currency-Code": 978, "Unit-Value": value}}
            return told | {"Requested-Action": 1, "Requested-Service-Unit": money}
        group = self.chance.choice(sorted(self.members))
        services = [{"Rating-Group": group, **self.wanted(group)}]
        return told | {"Requested-Action": 0, SERVICES: services}


@contextlib.contextmanager
def served(path: pathlib.Path, moment: int) -> Iterator[http.client.HTTPConnection]:
    """A connection to a database, all commands at one moment."""
    with socket.socket() as free:
        free.bind(("127.0.0.1", 0))
        port = free.getsockname()[1]
    words = [os.environ.get("OCS") or program(), "serve", str(path), "--port", str(port)]
    words += ["--connections", "1", "--at", str(moment)]
    with subprocess.Popen(words, stdout=subprocess.PIPE, text=True) as process:
        assert process.stdout and process.stdout.readline().startswith("listening")
        connection = http.client.HTTPConnection("127.0.0.1", port, timeout=60)
        yield connection
        connection.close()


def world(folder: pathlib.Path, seed: int, requests: int = 250) -> World:
    """A world that was played under two books, with a bar and vouchers."""
    made = World(folder, seed)
    made.plays(requests // 2)
    made.later_book()
    made.redeems()
    made.bars()
    made.plays(requests - requests // 2)
    return made
