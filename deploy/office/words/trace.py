"""Says what was asked of an account, and what became of it.

    office trace ACCOUNT [SINCE] [--session ID] [--json]

It reads the doors' log and prints a sentence a request: when it came, who asked at which door, what,
what became of it, and the first letters of its id, which its client has as X-Request-Id. SINCE is a
moment as journalctl reads it: yesterday (without one), '2026-11-29 14:00', '-5 min'. Moments are UTC.
Refused (status 1) where no line names the account."""
from __future__ import annotations

import argparse
import re

from office.faults import Refused, Unread
from office.progress import shown
from office.seen import sentences, traced
from office.settings import Settings


def add(parser: argparse.ArgumentParser) -> None:
    """Adds the word's arguments."""
    parser.add_argument("account", metavar="ACCOUNT", help="1 to 15 digits")
    parser.add_argument("since", metavar="SINCE", nargs="?", default="yesterday")
    parser.add_argument("--session", metavar="ID", help="the requests of this Session-Id alone")
    parser.add_argument("--json", action="store_true", help="the lines as they are")


def run(settings: Settings, arguments: argparse.Namespace) -> int:
    """Prints the account's lines in the log's order."""
    account = str(arguments.account)
    if not re.fullmatch("[0-9]{1,15}", account):
        raise Unread(f"ACCOUNT is 1 to 15 digits, not {account!r}")
    found = 0
    for text, line in shown("trace", traced.lines(settings, account, arguments.since)):
        if arguments.session not in (None, line.session):
            continue
        print(text.rstrip("\n") if arguments.json else sentences.sentence(line))
        found += 1
    if not found:
        raise Refused(f"no line since {arguments.since} names account {account}")
    return 0
