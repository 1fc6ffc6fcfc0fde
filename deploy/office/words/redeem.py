"""Redeems a voucher for an account, whichever shard its code is in, and prints the answer.

    office redeem 123456789012 49151

A code of another shard than the account's takes two requests and the clearing accounts that `office
clearing` opens. Stopped anywhere and run again with the same words, it credits the account once;
another account gets the refusal of a spent voucher. The exit status is 1 where the answer is a
refusal."""
from __future__ import annotations

import argparse
import re

from office import options, redemption
from office.client import Client
from office.faults import Unread
from office.settings import Settings


def add(parser: argparse.ArgumentParser) -> None:
    """Adds the word's arguments."""
    parser.add_argument("code", metavar="CODE", help="12 digits")
    parser.add_argument("account", metavar="ACCOUNT", help="1 to 15 digits")
    options.dry_run(parser)


def run(settings: Settings, arguments: argparse.Namespace) -> int:
    """Redeems the code; 1 where that was refused."""
    code, account = arguments.code, arguments.account
    if not re.fullmatch("[0-9]{12}", code) or not re.fullmatch("[0-9]{1,15}", account):
        raise Unread("CODE is 12 digits, ACCOUNT 1 to 15")
    clearings = redemption.clearings(settings)
    if arguments.dry_run:
        print(f"{code} would be looked for in the shards of {len(clearings) + 1} accounts")
        return 0
    with Client(settings) as client:
        answer = redemption.redeem(client, code, account, clearings)
    print(answer.compact())
    return 0 if "Bucket" in answer.body else 1
