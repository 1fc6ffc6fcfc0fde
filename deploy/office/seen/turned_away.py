"""How often each door turned somebody away, and why, counted as the lines of the log come.

`measures` starts the thread; HAProxy's own measures tell no reason. A line of an accepted request costs
one search of its text."""
from __future__ import annotations

import collections
import threading
import time

from office import log_line
from office.faults import Fault
from office.seen import log
from office.settings import Settings

AGAIN = 5.0
ACCEPTED = f'"why":"{log_line.NONE}"'


class TurnedAway:
    """Counts by door and reason, from the start of the thread on."""

    def __init__(self, settings: Settings) -> None:
        self.settings = settings
        self.counts: collections.Counter[tuple[str, str]] = collections.Counter()
        self.thread = threading.Thread(target=self.run, daemon=True)

    def start(self) -> None:
        """Begins to read the log."""
        self.thread.start()

    def run(self) -> None:
        """Reads the log as it comes, again where the reading ends."""
        while True:
            try:
                for text in log.follow(self.settings):
                    self.add(text)
            except Fault:
                pass
            time.sleep(AGAIN)

    def add(self, text: str) -> None:
        """Counts a line, if it is of somebody who was turned away."""
        if ACCEPTED in text:
            return
        line = log_line.read(text)
        if line is not None and line.why != log_line.NONE:
            self.counts[line.door, line.why] += 1
