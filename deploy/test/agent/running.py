"""The agent over an office of the doors' tests: started, killed, its lines."""
from __future__ import annotations

import json
import pathlib
import subprocess
from typing import Any

from office import settings, shards

from doors.conftest import CLIENTS, DOORS, file_of
from support import ports
from support.callers import Caller
from support.waiting import until
from support.world import OFFICE, World, done, program

AGENT = """
[agent]
socket = "{place}/agent.sock"
redeemed = "{place}/redeemed.db"
fresh = 60
[keeping]
locks = "{place}/locks"
archive = "{place}/archive"
copies = "{place}/copies"
"""
COME = ("ada", "audit", "shop-8", "shop-9", "pgw-2")
# Codes of the first shard and of the last one, beside those of every office of tests.
OF_FIRST = [f"30000000{at:04}" for at in range(20)]
OF_LAST = [f"20000000{at:04}" for at in range(60)]
TLS = ("gateways", "shops", "operators")


class Agent:
    """An office with its agent."""

    def __init__(self, world: World) -> None:
        self.world = world
        self.socket = world.place / "agent.sock"
        self.out = world.place / "agent.log"
        self.homes = shards.Homes(settings.read(world.file))
        self.process: subprocess.Popen[bytes] | None = None

    def start(self, file: pathlib.Path | None = None) -> None:
        """Starts the agent, over the office's file or another one, once the one before is gone."""
        until(lambda: not self.is_listening(), "the end of the agent before")
        with self.out.open("ab") as out:
            words = [str(OFFICE), "--file", str(file or self.world.file), "agent"]
            self.process = subprocess.Popen(words, stdin=subprocess.DEVNULL, stdout=out, stderr=out)
        until(self.is_up, "the agent")

    def ensure(self, file: pathlib.Path) -> None:
        """Starts the agent over this file where a test left none."""
        if self.process is None or self.process.poll() is not None:
            self.start(file)

    def is_up(self) -> bool:
        """Whether it listens; fails where it has ended."""
        assert self.process and self.process.poll() is None, self.out.read_text()[-2000:]
        return self.is_listening()

    def is_listening(self) -> bool:
        """Whether somebody listens at the agent's socket."""
        rows = pathlib.Path("/proc/net/unix").read_text(encoding="utf-8").splitlines()
        return any(row.endswith(f" {self.socket}") and row.split()[3] == "00010000" for row in rows)

    def kill(self) -> None:
        """Kills the agent by -9."""
        assert self.process
        self.process.kill()
        self.process.wait()

    def stop(self) -> int:
        """Has the agent end; its status."""
        assert self.process
        self.process.terminate()
        return self.process.wait(120)

    def end(self) -> None:
        """Ends all processes."""
        if self.process:
            self.kill()
        self.world.end()

    def home(self, account: str) -> str:
        """The shard of an account."""
        return self.homes.home(account).number

    def at(self, door: str, name: str | None = None) -> Caller:
        """Who asks at a door."""
        return Caller(self.world, self.world.doors[door], door in TLS, name)

    def script(self) -> Caller:
        """A script on this machine."""
        return Caller(self.world, self.world.place / "office.sock")

    def lines(self) -> list[dict[str, Any]]:
        """The agent's lines so far."""
        text = self.out.read_text(encoding="utf-8")
        return [json.loads(line) for line in text.splitlines() if line.startswith("{")]

    def line(self, request: str) -> dict[str, Any]:
        """The last line of the request with this id."""
        until(lambda: any(one["id"] == request for one in self.lines()), f"a line of {request}")
        return [one for one in self.lines() if one["id"] == request][-1]


def made(place: pathlib.Path) -> Agent:
    """An office that is up with its agent, in a folder."""
    first = ports.free(len(DOORS))
    doors = {name: first + at for at, name in enumerate(DOORS)}
    text = file_of(doors) + AGENT
    text = text.replace('sockets = "{place}"', 'sockets = "{place}"\nlog = "{place}/log"')
    world = World(place, text, doors)
    world.write(text.replace("[office]\n", '[office]\nprogram = "{program}"\n'))
    world.command("certificate", "office", "--host", "localhost")
    for name in COME:
        world.command("certificate", CLIENTS[name], name)
    (place / "clearing").touch()
    world.make()
    imported(world, 1, OF_FIRST)
    imported(world, 4, OF_LAST)
    world.balance()
    world.command("clearing", "--write")
    one = Agent(world)
    one.start()
    return one


def imported(world: World, at: int, codes: list[str]) -> None:
    """Puts vouchers of 5.00 and 30 days into a shard, every second one for group 10 alone."""
    rows = [f"{code},5000000,30,{'10' if int(code) % 2 else ''}\n" for code in codes]
    path = world.place / f"vouchers-{at}.csv"
    path.write_text("code,amount,days,scope\n" + "".join(rows))
    world.kill(at)
    done(program(), "import", world.database(at), path)
    world.start(at)
