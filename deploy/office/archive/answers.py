"""What the service answers of a request that may be a repeat of one that an archive keeps.

`Door.keeps` says whether the request's key is in an archive, as the program would read the request;
`Door.answer` answers it as the archive's database would. Of equal content that is the kept answer. Of
anything else the program says it, over a few rows of the archive that nobody else sees and that go:
a reference that was used for something else, a session that is over, a request that isn't read. None of
them can be accepted there, for its key has been used. A month's statement is that of `months`.

A repeat costs a look at each archive and its kept answer, twice; one that isn't equal a start of the
program over the account's rows besides."""
from __future__ import annotations

import contextlib
import dataclasses
import http.client
import json
import pathlib
import re
import threading
import time
from typing import Any

from office import copies, program, shards, spare
from office.archive import known, past
from office.archive.months import Months
from office.archive.past import Part
from office.archive.open_files import OpenFiles
from office.faults import Refused
from office.scratch import scratch
from office.settings import Settings
from office.tables import opened

REQUEST, COMMAND = 1, 2
# CC-Request-Type of an event, and what of it only reads.
EVENT, READS = 4, (2, 3)
ACCOUNT = re.compile(r"/accounts/([0-9]{1,15})/(credits|allowances)")
REDEEM = re.compile(r"/vouchers/([0-9]{12})/redeem")
STATEMENT = re.compile(r"/accounts/([0-9]{1,15})/statement/([0-9]{6})")
MONTH = re.compile(r"(19[7-9]\d|20\d\d)(0[1-9]|1[0-2])")
KEPT = (
    "SELECT content, answer FROM answers WHERE account = ? AND kind = ? AND name = ? AND number = ?"
)


@dataclasses.dataclass(frozen=True)
class Asked:
    """A request as HAProxy hands it on."""

    method: str
    path: str
    body: bytes


@dataclasses.dataclass(frozen=True)
class Key:
    """Under what an answer is kept, and the content that it is kept for where that is plain."""

    account: str
    kind: int
    name: str
    number: int = 0
    content: str = ""


@dataclasses.dataclass(frozen=True)
class Answer:
    """An answer, and the shard in which its account lives."""

    status: int
    text: str
    shard: str
    kind: str = "application/json"
    archive: str = ""  # the name of the archive that it is of


class Door:
    """The archives of an office."""

    def __init__(self, settings: Settings, lock: threading.Lock, open_files: OpenFiles) -> None:
        # The lock of the port on which the program answers.
        self.settings, self.lock, self.open_files = settings, lock, open_files

    def keeps(self, asked: Asked) -> bool:
        """Whether an archive has the key of a request, or the month of a statement."""
        month, key = STATEMENT.fullmatch(asked.path), key_of(asked)
        with self.open_files.looked_at(self.files()) as parts:
            if asked.method == "GET" and month:
                own = past.of_account(parts, month[1])
                return bool(MONTH.fullmatch(month[2])) and Months().is_past(own, *month.groups())
            return (
                key is not None and past.keeper(parts, key.account, key.kind, key.name) is not None
            )

    def answer(self, asked: Asked) -> Answer | None:
        """The answer; none where no archive has one."""
        month = STATEMENT.fullmatch(asked.path)
        if asked.method == "GET" and month and MONTH.fullmatch(month[2]):
            with past.opened_parts(self.files()) as parts:
                return self.statement(parts, month[1], month[2])
        key = key_of(asked)
        with self.open_files.looked_at(self.files()) as parts:
            part = key and past.keeper(parts, key.account, key.kind, key.name)
            if not key or not part:
                return None
            row = next(part.database.rows(KEPT, key.account, key.kind, key.name, key.number), None)
        shard, name = str(shards.Homes(self.settings).home(key.account)), part.file.name
        if row and row["content"] == key.content:
            return Answer(200, row["answer"], shard, archive=name)
        with past.opened_parts([part.file]) as parts:
            return Answer(*self.told(parts[0], key.account, asked), shard, archive=name)

    def files(self) -> list[past.File]:
        """The archives; refused where one that is in force isn't there, since it may have the request."""
        found = past.files(self.settings)
        gone = set(known.named(self.settings)) - {one.name for one in found}
        if gone:
            raise Refused(f"archives that are in force aren't there: {' '.join(sorted(gone))}")
        return found

    def statement(self, parts: list[Part], account: str, month: str) -> Answer:
        """The statement of a month, of which archives have a part or the whole."""
        own, shard = past.of_account(parts, account), shards.Homes(self.settings).home(account)
        months, now = Months(), int(time.time())
        with contextlib.ExitStack() as held:
            database = None
            if months.closed(own, month) is None:
                copied = held.enter_context(copies.made(self.settings, [shard]))
                database = held.enter_context(opened(copied[0]))
                now = max(now, database.last_moment)
            text = months.statement(own, account, month, database, now)
        return Answer(200, text, str(shard), "text/plain")

    def told(self, part: Part, account: str, asked: Asked) -> tuple[int, str]:
        """What the program answers over the account's rows in an archive."""
        place = pathlib.Path(self.settings.office.databases)
        with self.lock, scratch(place, ".archive-") as folder:
            program.give(self.settings, folder)
            made = folder / "rows.db"
            past.extract(self.settings, part.database, [account], made)
            port = self.settings.archive.port
            with spare.served(self.settings, made, "--at", part.at(), port=port) as served:
                return raw(served.connection, asked)


def raw(connection: http.client.HTTPConnection, asked: Asked) -> tuple[int, str]:
    """What a server answers to the very bytes of a request."""
    try:
        connection.request(asked.method, asked.path, asked.body)
        answer = connection.getresponse()
        return answer.status, answer.read().decode()
    except (OSError, http.client.HTTPException) as fault:
        raise Refused(f"{asked.method} {asked.path}: {fault}") from fault


def key_of(asked: Asked) -> Key | None:
    """The key of a request; none where it has none, so that no answer to it is kept."""
    told = object_of(asked.body)
    if asked.method != "POST" or told is None:
        return None
    if asked.path == "/ccr":
        return of_request(told)
    if found := ACCOUNT.fullmatch(asked.path):
        amount = "Amount" if found[2] == "credits" else "Blocks"
        return of_command(told, found[1], told if amount in told else {})
    if found := REDEEM.fullmatch(asked.path):
        account = told.get("Subscription-Id-Data")
        if isinstance(account, str):
            return of_command(told, account, told | {"Voucher-Code": found[1]})
    return None


def of_request(told: dict[str, Any]) -> Key | None:
    """The key of a request of a session or an event."""
    whose, session = told.get("Subscription-Id"), told.get("Session-Id")
    account = whose.get("Subscription-Id-Data") if isinstance(whose, dict) else None
    is_read = told.get("CC-Request-Type") == EVENT and told.get("Requested-Action") in READS
    if not isinstance(account, str) or not isinstance(session, str) or is_read:
        return None
    number = told.get("CC-Request-Number")
    return Key(account, REQUEST, session, number if type(number) is int else 0, compact(told))


def of_command(told: dict[str, Any], account: str, content: dict[str, Any]) -> Key | None:
    """The key of an operator's command."""
    name = told.get("Reference")
    return Key(account, COMMAND, name, 0, compact(content)) if isinstance(name, str) else None


def compact(told: dict[str, Any]) -> str:
    """An object as contents are kept, where it has no member that they lack."""
    return json.dumps(told, separators=(",", ":"), sort_keys=True, ensure_ascii=False)


def object_of(body: bytes) -> dict[str, Any] | None:
    """The object of a body; of a name that comes twice the last one counts, as for the program."""
    try:
        told = json.loads(body.decode("utf-8"), parse_int=whole)
    except (ValueError, RecursionError):
        return None
    return told if isinstance(told, dict) else None


def whole(text: str) -> int | str:
    """A whole number as it is written; what the program takes for none stays a text."""
    return text if text == "-0" or len(text) > 20 else int(text)
