"""A shard of this machine that nothing happens to. It is asked the commands that another shard
acknowledged, in the order of each account; the other one's rows are then its rows."""
from __future__ import annotations

import contextlib
import http.client
import pathlib
import sqlite3
import subprocess
import tempfile

from support import ports
from support.gateways import Account, Command, Door
from support.waiting import until
from support.world import done, program

Rows = dict[str, list[tuple[object, ...]]]


class Uncut:
    """The shard, and how far it has followed each account."""

    def __init__(self, place: pathlib.Path, book: str) -> None:
        self.place, self.database = place, place / "uncut.db"
        self.port = 0
        self.followed: dict[str, int] = {}
        self.process: subprocess.Popen[bytes] | None = None
        self.door = Door(self.connect)
        (place / "uncut.toml").write_text(book)
        done(program(), "init", self.database, place / "uncut.toml")

    def start(self, moment: int) -> None:
        """Serves, at a moment; at a port of its own each time, since a test may last for hours, and
        others are given ports too."""
        self.port = ports.free()
        words = [program(), "serve", str(self.database), "--port", str(self.port)]
        words += ["--connections", "1000000", "--at", str(moment)]
        self.process = subprocess.Popen(words, stdout=subprocess.DEVNULL)
        until(lambda: ports.listens(self.port), "the shard that nothing happens to", 600)

    def connect(self) -> http.client.HTTPConnection:
        """A connection to it."""
        return http.client.HTTPConnection("127.0.0.1", self.port, timeout=120)

    def end(self) -> None:
        """Stops it."""
        self.door.close()
        if self.process:
            self.process.terminate()
            self.process.wait()
        self.process = None

    def follow(self, account: Account) -> None:
        """Is asked what an account acknowledged since the last time; the answers are the same."""
        new = account.acknowledged[self.followed.get(account.number, 0) :]
        if account.number not in self.followed:
            self.told("PUT", f"/accounts/{account.number}")
        for command, answer in new:
            told = self.carry_out(command)
            assert told == answer, (command, answer, told)
        self.followed[account.number] = len(account.acknowledged)

    def carry_out(self, command: Command) -> str:
        """The answer to a command."""
        return self.told("POST", command.path, command.body)

    def add(self, book: str, moment: int) -> None:
        """A book is added, that holds from a moment; it isn't served meanwhile and afterwards."""
        self.end()
        (self.place / "other.toml").write_text(book)
        done(program(), "book", "--from", moment, self.database, self.place / "other.toml")

    def sweep(self) -> None:
        """Is swept."""
        self.told("POST", "/sweep")

    def told(self, method: str, path: str, body: str = "") -> str:
        """The text of an answer with status 200."""
        status, text = self.door.ask(method, path, body)
        assert status == 200, (method, path, body, status, text)
        return text

    def rows(self) -> Rows:
        """Its rows."""
        return rows_of(self.files())

    def files(self) -> list[bytes]:
        """Its database and its log; nobody asks it meanwhile."""
        paths = [self.database, self.database.with_name("uncut.db-wal")]
        return [path.read_bytes() if path.exists() else b"" for path in paths]

    def become(self, files: list[bytes], accounts: list[Account]) -> None:
        """It isn't served, and has these files from now on, in which each account's commands are
        carried out."""
        self.database.write_bytes(files[0])
        self.database.with_name("uncut.db-wal").write_bytes(files[1])
        self.followed = {one.number: len(one.acknowledged) for one in accounts}


def rows_of(files: list[bytes]) -> Rows:
    """The rows of each table of a database and its log; it has to be whole."""
    with tempfile.TemporaryDirectory() as folder:
        database = pathlib.Path(folder) / "a.db"
        database.write_bytes(files[0])
        database.with_name("a.db-wal").write_bytes(files[1])
        with contextlib.closing(sqlite3.connect(database)) as store:
            assert store.execute("PRAGMA integrity_check").fetchone() == ("ok",)
            names = store.execute("SELECT name FROM sqlite_master WHERE type = 'table'").fetchall()
            tables = {name: store.execute(f"SELECT * FROM {name}").fetchall() for (name,) in names}
            return {name: sorted(rows, key=repr) for name, rows in tables.items()}
