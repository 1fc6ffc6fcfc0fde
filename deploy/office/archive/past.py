"""The archives: files of databases that are only read, and what of an account is in which.

A carry leaves a shard's whole old database, `NN-MOMENT.db`, and a move the rows of the accounts that
moved, `NN-MOMENT-to-MM.db` (`-2` and so on behind it where one second had several). An account may be in
some of them, one after another. Rows that it left behind in a shard, and that the shard's archive has
therefore, aren't its past: the file of the move has them.

Each look at an account costs a look at each file's keys."""
from __future__ import annotations

import calendar
import contextlib
import dataclasses
import pathlib
import re
import sqlite3
import time
from collections.abc import Iterable, Iterator

from office import places, program
from office.faults import Refused
from office.settings import Settings
from office.tables import Database, opened, uri

NAME = re.compile(r"(\d\d)-(\d{8}T\d{6}Z)(?:-to-(\d\d)(?:-\d+)?)?")
# Tables with the rows of accounts, but for vouchers: a code lives where it was imported.
TABLES = (
    "accounts",
    "buckets",
    "counters",
    "sessions",
    "session_groups",
    "holds",
    "answers",
    "charges",
    "grant_books",
    "allowance_buckets",
    "covered",
)
KEPT = "SELECT 1 FROM answers WHERE account = ? AND kind = ? AND name = ? LIMIT 1"


@dataclasses.dataclass(frozen=True)
class File:
    """An archive: of the shard that it was, or of accounts that moved from there to another one."""

    name: str
    path: pathlib.Path
    shard: str
    moment: int  # of the turn, or of the move, in seconds since 1970
    target: str = ""


@dataclasses.dataclass(frozen=True)
class Part:
    """An archive that is open for reading."""

    file: File
    database: Database

    def at(self) -> int:
        """The moment as of which its rows are."""
        return max(self.file.moment, self.database.last_moment)


def files(settings: Settings) -> list[File]:
    """The archives, the oldest first; of a turn that isn't ended yet too."""
    found = []
    folder = pathlib.Path(settings.keeping.archive)
    for ending in (".db", f".db{places.TURNING}"):
        for path in folder.glob(f"*{ending}"):
            name = path.name.removesuffix(ending)
            told = NAME.fullmatch(name)
            if told and not (told[3] and ending != ".db"):
                found.append(File(name, path, told[1], moment_of(name), told[3] or ""))
    return sorted(found, key=lambda one: (one.moment, bool(one.target), one.name))


def moment_of(name: str) -> int:
    """The moment of an archive's name; 0 where it is none."""
    told = NAME.fullmatch(name)
    return calendar.timegm(time.strptime(told[2], places.FORM)) if told else 0


def name_of_move(settings: Settings, source: str, target: str, moment: int) -> str:
    """A name that no archive has, for the accounts of a move."""
    stem = f"{source}-{time.strftime(places.FORM, time.gmtime(moment))}-to-{target}"
    folder, count, name = pathlib.Path(settings.keeping.archive), 1, stem
    while list(folder.glob(f"{name}.db*")):
        count += 1
        name = f"{stem}-{count}"
    return name


@contextlib.contextmanager
def opened_parts(those: Iterable[File]) -> Iterator[list[Part]]:
    """Archives, open for reading."""
    with contextlib.ExitStack() as held:
        yield [Part(one, held.enter_context(opened(one.path, is_still=True))) for one in those]


def of_account(parts: Iterable[Part], account: str) -> list[Part]:
    """Those that have the past of an account, the oldest first."""
    found, left = [], set[str]()
    asked = "SELECT 1 FROM accounts WHERE account = ?"
    for part in parts:
        file = part.file
        if part.database.one(asked, account) is None or (not file.target and file.shard in left):
            continue
        if file.target:
            left.add(file.shard)
            left.discard(file.target)
        found.append(part)
    return found


def moved_to(settings: Settings, shard: str) -> set[str]:
    """The accounts that moved to a shard and haven't left it since, by the archives of moves."""
    found = set[str]()
    for file in files(settings):
        if file.target and shard in (file.shard, file.target):
            with opened(file.path, is_still=True) as read:
                those = {row["account"] for row in read.rows("SELECT account FROM accounts")}
            found = found | those if file.target == shard else found - those
    return found


def keeper(parts: Iterable[Part], account: str, kind: int, name: str) -> Part | None:
    """The first archive that has a key: what was answered there was the first answer."""
    for part in parts:
        if part.database.one(KEPT, account, kind, name) is not None:
            return part
    return None


def extract(
    settings: Settings, source: Database, accounts: Iterable[str], made: pathlib.Path
) -> None:
    """Makes a database of some accounts of another one, with their rows as they are there."""
    books = source.books()
    with program.handed(settings, "book", books[0][0].encode()) as book:
        program.done(settings, "init", made, book)
    try:
        with contextlib.closing(sqlite3.connect(made)) as store, store:
            store.execute("ATTACH ? AS source", (uri(source.path, True),))
            store.execute("CREATE TEMP TABLE those (account TEXT PRIMARY KEY)")
            store.executemany("INSERT INTO those VALUES (?)", ((one,) for one in accounts))
            store.execute("INSERT INTO main.books SELECT * FROM source.books")
            store.execute("UPDATE main.meta SET last_moment = ?", (source.last_moment,))
            for table in TABLES:
                rows = f"SELECT * FROM source.{table} WHERE account IN (SELECT account FROM those)"
                store.execute(f"INSERT INTO main.{table} {rows}")
    except sqlite3.Error as fault:
        raise Refused(f"{made}: {fault}") from fault
    program.give(settings, made)
    for end in places.ENDS:
        log = made.with_name(made.name + end)
        if log.exists():
            program.give(settings, log)
