"""The database with which the batches of tools/faults bytes begin, runs of the program over copies of
it, and their rows as SQLite shows them."""
import collections
import contextlib
import pathlib
import random
import re
import resource
import shutil
import sqlite3
import subprocess
from dataclasses import dataclass

import offices
import transcripts
from hostile_streams import SECONDS, Answer, Ended, need

MEMORY = 8 << 30
BOOK = offices.TOP / "tests/scenarios/worked-debits/book.toml"
LATER_BOOK = offices.TOP / "examples/later-book.toml"
# Monday 2026-01-05 07:30, half an hour before a tariff switch, and later moments.
BEGUN, LATER = 1_767_598_200, 1_767_610_000
MOMENTS = (1_767_599_700, 1_767_600_900, 1_767_607_800)
ACCOUNTS = ("49151", "0", "999999999999999")
SESSION = re.compile(rb'"Session-Id": ?"([^"\\]*)"')
ACCOUNT = re.compile(rb'"Subscription-Id-Data": ?"[0-9]+"')
STATEMENT = ("statement", "db", "49151", "202601", "--at", LATER)
# Rows that no database has, and rows that no commands leave.
BROKEN = (
    "SELECT * FROM buckets WHERE credited <> available + reserved + charged + expired",
    "SELECT * FROM charges WHERE rated <> collected + uncollected",
    "PRAGMA foreign_key_check",
    "SELECT * FROM pragma_integrity_check WHERE integrity_check <> 'ok'")
UNDUE = (
    *BROKEN,
    "SELECT * FROM buckets AS b WHERE reserved <> (SELECT ifnull(sum(amount), 0) FROM holds AS h"
    " WHERE h.account = b.account AND h.bucket = b.number)",
    "SELECT * FROM accounts AS a WHERE (SELECT ifnull(sum(charged), 0) FROM buckets AS b WHERE"
    " b.account = a.account AND (b.account, b.number) NOT IN (SELECT account, number FROM"
    " allowance_buckets)) <> (SELECT ifnull(sum(collected), 0) FROM charges AS c WHERE"
    " c.account = a.account)",
    "SELECT * FROM accounts AS a WHERE (SELECT ifnull(sum(charged), 0) FROM buckets AS b JOIN"
    " allowance_buckets USING (account, number) WHERE b.account = a.account) <> (SELECT"
    " ifnull(sum(blocks), 0) FROM covered AS c WHERE c.account = a.account)",
    "SELECT account, session, rating_group FROM session_groups WHERE reserved = 1 EXCEPT"
    " SELECT account, session, rating_group FROM grant_books",
    "SELECT account, session, rating_group FROM grant_books EXCEPT"
    " SELECT account, session, rating_group FROM session_groups WHERE reserved = 1")


@dataclass(frozen=True)
class Office:
    """The program; the database that batches begin with, and the statements that were due on the
    way to it; what is changed: requests of files of lines, books, files of vouchers."""

    built: str
    base: pathlib.Path
    due: list
    bodies: list
    books: list
    vouchers: list


@dataclass
class Batch:
    """What chooses, the office, a folder, and how much came to what."""

    chance: random.Random
    office: Office
    work: pathlib.Path
    told: collections.Counter

    def run(self, place, *words):
        """How the program ends in a folder."""
        return run(self.office.built, place, *words)

    def copy(self, name):
        """A copy of the database in a folder of its own."""
        return pathlib.Path(shutil.copytree(self.office.base, self.work / str(name)))

    def bodies(self, tag, most):
        """Requests of two sessions of a file, under names that no others have."""
        bodies = self.chance.choice(self.office.bodies)
        two = self.chance.choice(bodies) + self.chance.choice(bodies)
        names = set(SESSION.findall(two))
        account = self.chance.choice((*ACCOUNTS, ACCOUNTS[0], ACCOUNTS[0], "7")).encode()
        for body in [body for body in bodies if names & set(SESSION.findall(body))][:most]:
            body = SESSION.sub(rb'"Session-Id":"\1-%d"' % tag, body)
            yield ACCOUNT.sub(rb'"Subscription-Id-Data":"%s"' % account, body)


def limit():
    """A length that was changed can't take all of the machine's memory."""
    resource.setrlimit(resource.RLIMIT_AS, (MEMORY, MEMORY))


def run(built, place, *words):
    """How the program ends in a folder: by itself, and with status 0 or 1."""
    call = [built, *map(str, words)]
    pipes = {"stdin": subprocess.DEVNULL, "capture_output": True}
    done = subprocess.run(call, cwd=place, timeout=SECONDS, preexec_fn=limit, **pipes)
    ended = Ended(done.returncode, done.stdout, done.stderr)
    need(ended.status in (0, 1), words, ended)
    return ended


def replayed(built, place, text):
    """The answers to lines, which are replayed to their end."""
    (place / "lines").write_bytes(text)
    ended = run(built, place, "replay", "db", "lines")
    need(ended.status == 0 and not ended.err, ended)
    return [Answer(200, line) for line in ended.out.split(b"\n")[:-1]]


def rows(place, unwanted=UNDUE):
    """All rows of a database, which has none that is unwanted. A changed byte of a comment in the
    texts of its tables need not be UTF-8."""
    with contextlib.closing(sqlite3.connect(place / "db")) as opened:
        opened.text_factory = lambda text: text.decode(errors="replace")
        for asked in unwanted:
            found = opened.execute(asked).fetchall()
            need(not found, asked, found)
        return set(opened.iterdump())


def need_same_rows(first, second):
    """Raises with the rows that only one of two databases has."""
    found = rows(first) ^ rows(second)
    need(not found, "rows", found)


def put_log_back(place):
    """Has SQLite write the log of a database back into its file."""
    with contextlib.closing(sqlite3.connect(place / "db")) as opened:
        opened.execute("PRAGMA wal_checkpoint(TRUNCATE)")


def opening():
    """The words that open accounts and credit them."""
    credits = (
        ("49151", 3_000_000, "first"), ("0", 10**15, "second", "--scope", 10),
        ("49151", 10**12, "third", "--until", MOMENTS[1] + 30))
    opens = [("open", "db", account) for account in ACCOUNTS]
    words = [*opens, *(("credit", "db", *credit) for credit in credits)]
    return [(*one, "--at", BEGUN) for one in words]


def allowances():
    """The words that give accounts free blocks, of groups that the first book has."""
    given = (
        ("49151", 40, "free", "--scope", 10), ("0", 10**9, "free", "--scope", 20),
        ("49151", 3, "few", "--scope", 30, "--until", MOMENTS[1] + 30))
    return [("allow", "db", *one, "--at", BEGUN) for one in given]


def lines_of(text):
    """The requests of lines."""
    return [line.split(b" ", 1)[1] for line in text.split(b"\n") if b" {" in line]


def lines_in(folder):
    """The requests that a scenario replays, by the names of their files."""
    steps = [step for step in transcripts.read(folder).steps if step.words[:1] == ["replay"]]
    texts = {step.written: step.given for step in steps if step.written}
    texts |= {path.name: path.read_bytes() for path in folder.glob("lines*.txt")}
    return [one for name in sorted(texts) for one in lines_of(texts[name])]


def prepare(built, base):
    """Makes the database with which all batches begin, and reads what they change."""
    tests = offices.TOP / "tests"
    bodies = [lines_of(path.read_bytes()) for path in sorted(tests.glob("streams/*.in"))]
    bodies += [lines_in(folder) for folder in sorted(transcripts.SCENARIOS.iterdir())]
    books, vouchers = ([path.read_bytes() for path in sorted(offices.TOP.glob(f"*/**/*.{kind}"))]
                       for kind in ("toml", "csv"))
    shutil.copy(BOOK, base / "book.toml")
    shutil.copy(LATER_BOOK, base / "later.toml")
    codes = "".join(f"{code:012},{10**5 * code},{code},\n" for code in range(1, 9))
    (base / "vouchers").write_text("code,amount,days,scope\n" + codes)
    made = ("init", "db", "book.toml"), ("import", "db", "vouchers", "--at", BEGUN)
    later = ("book", "db", "later.toml", "--from", MOMENTS[1])
    due = []
    for words in (*made, later, *opening(), *allowances()):
        need((ended := run(built, base, *words)).status == 0, words, ended)
        due.append(run(built, base, *STATEMENT).out)
    asked = lines_of((tests / "streams/all-05.in").read_bytes())[:60]
    lines = [b"%d %s\n" % (BEGUN + 20 * at, body) for at, body in enumerate(asked)]
    for line in lines:
        replayed(built, base, line)
        due.append(run(built, base, *STATEMENT).out)
    (base / "lines").write_bytes(b"".join(lines))
    return Office(built, base, due, [each for each in bodies if each], books, vouchers)
