"""Answers what an archive keeps: repeats of requests of before a carry or a move, and statements.

    office archive

It listens at the socket of the file ([archive] socket), which HAProxy alone reaches, until it is stopped;
the unit office-archive runs it. A request whose key an archive has is answered as the archive's database
would answer it, and nothing is accepted. While it is away HAProxy answers 503 to what may be such a
request; what is new goes to its shard. Archives are only read."""
from __future__ import annotations

import argparse

from office.archive import server
from office.settings import Settings


def add(parser: argparse.ArgumentParser) -> None:
    """Adds the word's arguments: none."""


def run(settings: Settings, arguments: argparse.Namespace) -> int:
    """Answers until the process is stopped."""
    try:
        server.serve(settings, arguments.file)
    except KeyboardInterrupt:
        pass
    return 0
