"""Prints HAProxy's configuration for the office's file.

    office doors > /etc/haproxy/haproxy.cfg

Nothing is printed where the file is refused. `office up` writes it in its place, sees that HAProxy
takes it, and has it read."""
from __future__ import annotations

import argparse
import sys

from office.doors import configuration
from office.settings import Settings


def add(parser: argparse.ArgumentParser) -> None:
    """Adds the word's arguments: none."""


def run(settings: Settings, arguments: argparse.Namespace) -> int:
    """Prints the configuration."""
    sys.stdout.write(configuration.text(settings))
    return 0
