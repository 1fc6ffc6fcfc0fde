"""What an office has to have, by tools/lib/ledgers.py: a reading of docs/RULES.md that shares nothing with
the program or with the command `office`.

It is handed each command once, at the moment at which its shard had it, and says the answer, balances,
statements and exports. Nothing is read of a database but what a carry puts into a new one, which has
to leave each account with what it had."""
from __future__ import annotations

import collections
import copy
import importlib
import json
import sys
from collections.abc import Iterable
from typing import Any

from month.machine import TOP

sys.path.append(str(TOP / "tools/lib"))
ledgers: Any = importlib.import_module("ledgers")
Body = dict[str, Any]


class Model:
    """An office of shards whose clocks are one."""

    def __init__(self, book: str) -> None:
        self.office: Any = ledgers.Office(book)
        self.codes: dict[str, str] = {}  # each voucher's shard
        self.crossed: list[tuple[str, str]] = []  # codes redeemed for accounts of other shards
        self.clearings: dict[str, str] = {}  # each shard's clearing account
        # What accounts did in databases in which they live no more.
        self.past = collections.defaultdict[str, list[Any]](list)

    def asked(self, method: str, path: str, body: Body | None, at: int) -> str:
        """The answer to a request, as compact JSON."""
        if path == "/ccr":
            return str(self.office.ask(body, at))
        account = path.split("/")[2]
        if method == "GET":
            return str(ledgers.text_of(self.office.accounts[account].balance(at)))
        if method == "PUT":
            told = self.office.open(account, at)
        else:
            kind = "blocks" if path.endswith("/allowances") else "money"
            told = self.office.give(account, kind, body, at)
        return str(ledgers.text_of(told))

    def redeem(self, code: str, account: str, shard: str, at: int) -> Body:
        """The answer to `office redeem`, for an account of this shard."""
        if shard == self.codes[code]:
            return dict(self.office.redeem(code, account, f"redeem-{code}", at))
        told = self.cleared(code, account, at)
        if "Bucket" not in told:
            return told
        self.crossed.append((code, account))
        return self.credited(code, account, told["Bucket"], at)

    def cleared(self, code: str, account: str, at: int) -> Body:
        """The answer to a code's redemption on its shard's clearing account."""
        clearing = self.clearings[self.codes[code]]
        return dict(self.office.redeem(code, clearing, f"voucher-{code}-{account}", at))

    def credited(self, code: str, account: str, number: int, at: int) -> Body:
        """The answer to the credit of what a code brought to a clearing account."""
        bucket = self.office.accounts[self.clearings[self.codes[code]]].buckets[number - 1]
        body = {"Amount": bucket.credited, "Until": bucket.until, "Reference": f"voucher-{code}"}
        body |= {} if bucket.scope is None else {"Scope": bucket.scope}
        return dict(self.office.give(account, "money", body, at))

    def kept(self, accounts: Iterable[str]) -> dict[str, Any]:
        """Accounts as they are now, which a copy of their shard has."""
        known = {id(self.office.shelf): self.office.shelf}
        return {one: copy.deepcopy(self.office.accounts[one], known) for one in accounts}

    def restored(
        self,
        shard: str,
        kept: dict[str, Any],
        spent: dict[str, Any],
        homes: dict[str, str],
        at: int,
    ) -> None:
        """A shard goes on as it was kept, but for codes that went from one shard to another since."""
        self.office.accounts |= kept
        for code in (each for each, where in self.codes.items() if where == shard):
            self.office.vouchers[code][1] = spent[code]
        for code, account in sorted(self.crossed, key=lambda each: homes[each[1]]):
            if self.codes[code] == shard:
                self.cleared(code, account, at)
        for code, account in sorted(self.crossed, key=lambda each: self.codes[each[0]]):
            if homes[account] == shard:
                told = self.cleared(code, account, at)
                self.credited(code, account, told["Bucket"], at)

    def left(self, account: str, at: int) -> list[tuple[Any, ...]]:
        """What is left of an account's live buckets, in their order."""
        one = self.office.accounts[account]
        return [
            (each.kind, each.begins, each.until, each.scope, one.left(each, at))
            for each in one.buckets
            if each.until > at and one.left(each, at)
        ]

    def places(self, account: str, at: int) -> dict[int, int]:
        """The counters on which a price depends."""
        one, groups = self.office.accounts[account], self.office.shelf.at(at).groups.values()
        counting = [
            group["id"] for group in groups if any(len(t) > 1 for t in group["tiers"].values())
        ]
        return {group: one.counter(group, at) for group in counting}

    def carry(
        self, accounts: Iterable[str], requests: Iterable[tuple[str, str, Body | None]], at: int
    ) -> dict[str, Any]:
        """Accounts go on in a new database, by these requests, with what they had; the old ones."""
        old = {account: self.office.accounts.pop(account) for account in accounts}
        for method, path, body in requests:
            told = json.loads(self.asked(method, path, body, at))
            assert told.get("Result-Code") == 2001, (method, path, body, told)
        for account, was in old.items():
            now = self.office.accounts[account]
            now.barred = was.barred
            self.office.accounts[account] = was
            had = self.left(account, at), self.places(account, at)
            self.office.accounts[account] = now
            assert (self.left(account, at), self.places(account, at)) == had, account
            self.past[account] += was.uses
        return old

    def whole(self, account: str) -> Any:
        """An account with all that it did in any database, but for what a carry sent of itself."""
        one = copy.copy(self.office.accounts[account])
        uses = [*self.past[account], *one.uses]
        one.uses = [it for it in uses if not it["session"].startswith("carry-counter-")]
        return one
