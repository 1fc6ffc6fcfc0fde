"""Bars accounts: a stolen SIM, a fraud.

    office bar 49151
    office bar --list FILE

Initial requests and debits of a barred account are denied, and its sessions are granted nothing
more; what they report is still charged. The program bars only in a database that nobody serves: the
shard of the account is found and stopped, the account is barred, and the shard is started. Accounts
of one shard are one stop. Requests wait meanwhile, and standard error says how long. After a kill
of this word, -9 as well, the shard starts by itself; the same words again do what is left.

Prints a line an account: its shard, its number, the program's answer; or `as before`. The journal
keeps who barred whom, and when (`journalctl -t office`). A shard whose last moment is ahead of the
clock is refused."""
from __future__ import annotations

import argparse

from office import operate
from office.settings import Settings

add = operate.add


def run(settings: Settings, arguments: argparse.Namespace) -> int:
    """Bars each account; 1 where one was refused."""
    return operate.on_accounts(settings, arguments, "bar", True)
