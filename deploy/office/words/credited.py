"""Tells the bridges from Diameter of top-ups, so that gateways of subscribers at a final unit ask
again at once (RFC 8506, 5.5).

    office credited ACCOUNT ..
    office credited --follow

With --follow it reads what comes in the doors' log, without an end, and tells of each credit,
allowance and redemption that was accepted; the unit ocs-credited runs it. A bridge that doesn't
answer isn't waited for: its subscribers go on at their next update.

Prints a line a top-up: the account, and the sessions whose gateways are told. 1 where a bridge didn't
answer for an account that was named."""
from __future__ import annotations

import argparse
import re
import sys
from collections.abc import Iterable, Iterator

from office import bridges, log_line
from office.faults import Unread
from office.seen import log
from office.settings import Settings

TOP_UP = re.compile(r"POST (/accounts/[0-9]{1,15}/(credits|allowances)|/vouchers/[0-9]{12}/redeem)")


def add(parser: argparse.ArgumentParser) -> None:
    """Adds the word's arguments."""
    parser.add_argument("accounts", nargs="*", metavar="ACCOUNT", help="1 to 15 digits")
    parser.add_argument(
        "--follow", action="store_true", help="those of the doors' log, as they come"
    )


def run(settings: Settings, arguments: argparse.Namespace) -> int:
    """Tells of the accounts that are named, or of those that come."""
    if arguments.follow == bool(arguments.accounts):
        raise Unread("credited takes accounts, or --follow")
    for account in arguments.accounts:
        if not re.fullmatch("[0-9]{1,15}", account):
            raise Unread(f"ACCOUNT is 1 to 15 digits, not {account!r}")
    coming = topped_up(log.follow(settings)) if arguments.follow else arguments.accounts
    silent = 0
    try:
        for account in coming:
            silent += tell(settings, account)
    except KeyboardInterrupt:
        # What follows the log ends by being stopped.
        if not arguments.follow:
            raise
        return 0
    return 1 if silent else 0


def topped_up(lines: Iterable[str]) -> Iterator[str]:
    """The accounts of the top-ups that these lines say were accepted."""
    for text in lines:
        line = log_line.read(text)
        if isinstance(line, log_line.Answered) and (line.status, line.code) == (200, "2001"):
            if TOP_UP.fullmatch(line.what):
                yield line.account


def tell(settings: Settings, account: str) -> int:
    """Tells every bridge; how many of them were silent."""
    told = {bridge: bridges.credited(bridge, account) for bridge in settings.diameter.watched()}
    print(account, sum(count or 0 for count in told.values()), flush=True)
    silent = [bridge for bridge, count in told.items() if count is None]
    for bridge in silent:
        print(f"credited: {bridge} doesn't answer", file=sys.stderr, flush=True)
    return len(silent)
