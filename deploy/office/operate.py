"""Words of the program over the shards of accounts: found, stopped, run, started.

`bar` and `unbar` call `on_accounts`. A shard is stopped once for all of its accounts; each account
costs a run of the program, which reads all rows of the shard. No moment is handed on: the program
asks the machine's clock, and a shard that is ahead of the clock is refused before it is stopped."""
from __future__ import annotations

import argparse
import collections
import dataclasses
import getpass
import os
import pathlib
import re
import sys
import syslog
import time

from office import options, program, shards
from office.alone import alone
from office.client import Answer, Client
from office.faults import Refused, Unanswered, Unread
from office.progress import shown
from office.settings import Settings
from office.shards import Shard
from office.tables import opened

ACCOUNT = re.compile("[0-9]{1,15}")
DONE = '{"Result-Code":2001}'
# A moment so little ahead is the same second, read by two.
SECONDS = 2


@dataclasses.dataclass(frozen=True)
class Found:
    """An account where it lives. Where nobody could be asked its bar is none, its moment 0."""

    account: str
    shard: Shard
    is_barred: bool | None = None
    moment: int = 0  # of its answers, in seconds since 1970


def add(parser: argparse.ArgumentParser) -> None:
    """The arguments of a word over accounts."""
    parser.add_argument("accounts", nargs="*", metavar="ACCOUNT", help="1 to 15 digits")
    parser.add_argument("--list", type=pathlib.Path, metavar="FILE", help="an account a line")
    options.dry_run(parser)


def on_accounts(settings: Settings, arguments: argparse.Namespace, word: str, becomes: bool) -> int:
    """Runs a word for each account, a stop a shard; prints a line an account. The status is 1 where
    one of them was refused."""
    told = accounts(arguments)
    by_shard = collections.defaultdict[Shard, list[str]](list)
    failed = 0
    for one in located(settings, told):
        if isinstance(one, str):
            print(one, file=sys.stderr)
            failed = 1
        elif one.is_barred == becomes:
            print(f"{one.shard} {one.account} as before")
        else:
            is_now(one.shard, one.moment)
            by_shard[one.shard].append(one.account)
    for shard, those in sorted(by_shard.items(), key=lambda each: each[0].number):
        if arguments.dry_run:
            print("".join(f"{shard} {account} would be changed\n" for account in those), end="")
        else:
            failed |= on_shard(settings, shard, word, those)
    return failed


def on_shard(settings: Settings, shard: Shard, word: str, those: list[str]) -> int:
    """Runs a word for accounts of a shard that is stopped; 1 where one was refused."""
    failed = 0
    with alone(settings, shard):
        is_now(shard, last_moment(shard))
        for account in shown(f"{word} {shard}", those):
            told = carried_out(settings, shard, word, account, user())
            print(f"{shard} {account} {told}", flush=True)
            failed |= told != DONE
    return failed


def carried_out(settings: Settings, shard: Shard, word: str, account: str, by: str) -> str:
    """What the program says to a word for an account of a shard that is stopped."""
    ended = program.run(settings, word, shard.database, account)
    told = (ended.stdout + ended.stderr).strip()
    record(f"{word} {account}", shard, told, by)
    return told


def user() -> str:
    """Who runs this word."""
    return os.environ.get("SUDO_USER") or getpass.getuser()


def accounts(arguments: argparse.Namespace) -> list[str]:
    """The accounts of the words and of the list, each once."""
    told = list(arguments.accounts)
    if arguments.list:
        try:
            told += arguments.list.read_text(encoding="utf-8").split()
        except (OSError, UnicodeDecodeError) as fault:
            raise Unread(f"{arguments.list}: {fault}") from fault
    if not told:
        raise Unread("no account is named: ACCOUNT, or --list FILE")
    for account in told:
        if not ACCOUNT.fullmatch(account):
            raise Unread(f"{account!r} is no account: 1 to 15 digits")
    return list(dict.fromkeys(told))


def located(settings: Settings, told: list[str]) -> list[Found | str]:
    """Each account where it lives, or a line that says why it is none."""
    with Client(settings) as client:
        each = [(account, find(settings, client, account)) for account in shown("find", told)]
    return [
        one if isinstance(one, Found) else f"{account} {one.compact()}" for account, one in each
    ]


def find(settings: Settings, client: Client, account: str) -> Found | Answer:
    """An account where it lives, or the answer that refuses it. The doors are asked, which know who
    answers; where none answers, the hash and the file of moved accounts say it."""
    try:
        answer = client.ask("GET", f"/accounts/{account}")
    except Unanswered:
        return Found(account, shards.Homes(settings).home(account))
    if "Account" not in answer.body:
        return answer
    shard = shards.named(settings, answer.shard)
    return Found(account, shard, answer.body["Barred"], answer.body["Moment"])


def last_moment(shard: Shard) -> int:
    """The last moment of a shard that nobody serves."""
    with opened(shard.database) as database:
        return database.last_moment


def is_now(shard: Shard, moment: int) -> None:
    """Refuses a shard that is ahead of the clock."""
    ahead = moment - int(time.time())
    if ahead > SECONDS:
        raise Refused(
            f"shard {shard} is {ahead} s ahead of this machine's clock, and what is done to it has "
            f"its moment: nothing was done (the cure is `office carry`)"
        )


def record(done: str, shard: Shard, told: str, by: str) -> None:
    """A line in the journal: the tables keep nothing of who barred whom, imported a file or added a
    book, and when."""
    syslog.openlog("office", facility=syslog.LOG_AUTH)
    syslog.syslog(syslog.LOG_NOTICE, f"{done} in shard {shard} by {by}: {told}")
