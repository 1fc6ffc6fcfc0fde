"""Makes a password for an operator, and prints it with the lines of the file that let it in.

    office password grace

The password is shown this once. It works at the operators' doors with tls, for one who shows no
certificate; a certificate is the better way."""
from __future__ import annotations

import argparse
import re
import secrets
import subprocess

from office.faults import Refused, Unread
from office.settings import NAME, Settings


def add(parser: argparse.ArgumentParser) -> None:
    """Adds the word's arguments."""
    parser.add_argument("name", metavar="NAME")


def run(settings: Settings, arguments: argparse.Namespace) -> int:
    """Prints a password and its lines."""
    if not re.fullmatch(NAME[0], arguments.name):
        raise Unread(f"{arguments.name!r} isn't {NAME[1]}")
    made = secrets.token_urlsafe(16)
    print(f"password of {arguments.name}: {made}")
    print(f'[[operator]]\nname = "{arguments.name}"\npassword = "{hashed(made)}"')
    return 0


def hashed(password: str) -> str:
    """The hash that HAProxy compares. It reckons it in its one thread for each request, and 128
    random bits need no slow hash, so it has the fewest rounds that there are."""
    salt = f"rounds=1000${secrets.token_hex(8)}"
    words = ["openssl", "passwd", "-5", "-salt", salt, "-stdin"]
    try:
        ended = subprocess.run(words, input=password, text=True, capture_output=True, check=True)
    except (OSError, subprocess.CalledProcessError) as fault:
        raise Refused(f"openssl: {fault}") from fault
    return ended.stdout.strip()
