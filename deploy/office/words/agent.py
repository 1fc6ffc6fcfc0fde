"""Answers what the office's page asks beside the program's routes.

    office agent

It listens at the socket of the file ([agent] socket), which HAProxy alone reaches, until
it is stopped; the unit office-agent runs it, as root: it reads the doors' log and copies of the
shards, and stops a shard for a bar. Stopped, it lets what is under way end; killed, it leaves no
shard stopped. Standard output has a JSON line an answer, with who asked. deploy/AGENT.md has what it
answers."""
from __future__ import annotations

import argparse

from office.agent import server
from office.settings import Settings


def add(parser: argparse.ArgumentParser) -> None:
    """Adds the word's arguments: none."""


def run(settings: Settings, arguments: argparse.Namespace) -> int:
    """Answers until the process is stopped."""
    try:
        server.serve(settings)
    except KeyboardInterrupt:
        pass
    return 0
