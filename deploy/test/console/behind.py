"""The office's agent in tests of the page: its process, what it answers, and what the page shows."""
from __future__ import annotations

import os
import pathlib
import signal
import subprocess
from typing import Any

from support.callers import Caller
from support.waiting import until
from support.world import OFFICE, World

from console.person import Person

ROWS = """[...document.querySelectorAll(PLACE + ' tbody tr')].map(row =>
    [...row.children].map(one => one.textContent.trim()))"""


class Agent:
    """The process of the office's agent."""

    def __init__(self, world: World, path: str = "") -> None:
        self.world, self.socket = world, world.place / "agent.sock"
        # Folders of commands that it finds before this machine's.
        self.path = path + os.environ["PATH"]
        self.process: subprocess.Popen[bytes] | None = None

    def start(self) -> None:
        """Starts it."""
        with (self.world.place / "agent.log").open("ab") as out:
            words = [str(OFFICE), "--file", str(self.world.file), "agent"]
            environment = os.environ | {"PATH": self.path}
            self.process = subprocess.Popen(
                words, stdin=subprocess.DEVNULL, stdout=out, stderr=out, env=environment
            )
        until(self.is_up, "the agent")

    def is_up(self) -> bool:
        """Whether it listens."""
        assert self.process and self.process.poll() is None
        rows = pathlib.Path("/proc/net/unix").read_text(encoding="utf-8").splitlines()
        return any(row.endswith(f" {self.socket}") and row.split()[3] == "00010000" for row in rows)

    def kill(self) -> None:
        """Kills it."""
        assert self.process
        self.process.send_signal(signal.SIGKILL)
        self.process.wait()


def told(world: World, target: str) -> Any:
    """What the agent answers."""
    answer = Caller(world, world.doors["desk"]).ask("GET", f"/office/agent/{target}")
    assert answer.status == 200, answer.text
    return answer.body


def behind(person: Person, what: str) -> None:
    """The page of an account, once it has asked the agent."""
    person.show(what)
    person.is_counted("behind", 0)


def rows_of(person: Person, place: str) -> Any:
    """The rows of a table."""
    return person.value(ROWS.replace("PLACE", repr(place)))
