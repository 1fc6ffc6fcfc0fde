"""A request to the agent, and what its answers are made with."""
from __future__ import annotations

import dataclasses
import json
import threading
import urllib.parse
from typing import Any

from office import shards
from office.agent.kept import Kept
from office.doors import routes
from office.faults import Unread
from office.settings import Settings

Body = dict[str, Any]
# Rights as the doors name them.
ALL, READS, REDEEMS = "", "read", "redeem"


class Office:
    """What every answer is made of: the office's file, copies of its shards, and a lock of each for
    what stops it."""

    def __init__(self, settings: Settings, kept: Kept) -> None:
        self.settings, self.kept = settings, kept
        self.pauses = {one.number: threading.Lock() for one in shards.of(settings)}


class Pairs(list[tuple[str, Any]]):
    """The members of a JSON object as they stand there, also one that comes twice."""


@dataclasses.dataclass(frozen=True)
class Asked:
    """A request, with who asks as the doors say it."""

    method: str
    target: str
    body: bytes
    who: str
    may: str  # what the doors say of it: "read" alone, "redeem" alone, or all where it is empty
    id: str  # the doors' line has it, and the client as X-Request-Id

    @property
    def is_shop(self) -> bool:
        """Whether somebody asks who only redeems, and isn't told of the office's inside."""
        return self.may == REDEEMS

    def is_let(self, path: str, changes: bool) -> bool:
        """Whether the one who asks may ask for this route; a right that isn't known is none."""
        rights = {ALL: True, READS: not changes, REDEEMS: path == routes.REDEEM}
        return rights.get(self.may, False)

    @property
    def path(self) -> str:
        """The target without what is behind `?`."""
        return self.target.partition("?")[0]

    def told(self, *names: str) -> dict[str, str]:
        """What is behind `?`, each name once; `Unread` where there is another name."""
        pairs = urllib.parse.parse_qsl(self.target.partition("?")[2], keep_blank_values=True)
        for name, _ in pairs:
            if name not in names:
                raise Unread(f"{name!r} isn't known here: {', '.join(names) or 'nothing is'}")
        told = dict(pairs)
        if len(told) < len(pairs):
            raise Unread("a name comes twice behind the ?")
        return told

    def text(self) -> str:
        """The body as a text."""
        try:
            return self.body.decode()
        except UnicodeDecodeError as fault:
            raise Unread(f"the body is no UTF-8: {fault}") from fault

    def object(self, *names: str) -> dict[str, str]:
        """The body as a JSON object of texts, with these names and no others."""
        try:
            pairs = json.loads(self.text(), object_pairs_hook=Pairs)
        except (ValueError, RecursionError) as fault:
            raise Unread(f"the body is no JSON: {fault}") from fault
        if not isinstance(pairs, Pairs):
            raise Unread("the body is no JSON object")
        told = dict(pairs)
        if len(told) < len(pairs) or set(told) != set(names):
            raise Unread(f"the body has {', '.join(names)}, each once, and nothing else")
        for name, value in told.items():
            if not isinstance(value, str):
                raise Unread(f"{name} is no text")
        return told
