"""Says what each door lets in, and what is missing; or whether a shard may start.

    office check                     the file, the certificates, HAProxy's lines
    office check --start 03          before shard 03 starts: may it, by this machine's clock?
    office check --start 03 --meant  it may for a day: the clock is right, whatever it looks like

A shard isn't to start where the clock wasn't synchronised since the boot, or is more than a day
from the last command of its database: what is accepted under a wrong clock has its moment for good.
After a rest of more than a day say --meant. The exit status is 1 where something is missing, or the
shard may not start."""
from __future__ import annotations

import argparse
import pathlib
import sys
import time

from office import clock, proxy, shards
from office.authority import openssl
from office.doors import configuration, routes
from office.faults import Fault, Refused, Unread
from office.seen import starts
from office.settings import Door, Settings

# Days before the end of a certificate from which on it is said.
SOON = 30


def add(parser: argparse.ArgumentParser) -> None:
    """Adds the word's arguments."""
    parser.add_argument("--start", metavar="NN", help="whether this shard may start")
    parser.add_argument("--meant", action="store_true", help="the clock is right: it may")


def run(settings: Settings, arguments: argparse.Namespace) -> int:
    """Checks the office, or a shard's start."""
    if arguments.start:
        return start(settings, shards.named(settings, arguments.start), arguments.meant)
    if arguments.meant:
        raise Unread("--meant belongs to --start NN")
    for door in settings.doors:
        print(described(settings, door))
    wrong = faults(settings)
    for fault in wrong:
        print(f"office: {fault}", file=sys.stderr)
    return 1 if wrong else 0


def start(settings: Settings, shard: shards.Shard, is_meant: bool) -> int:
    """Whether a shard may start; 1 where it may not. What is said of one that may is its unit's line
    in the journal."""
    if is_meant:
        clock.mean(shard)
    fault = clock.fault(settings, shard)
    if fault:
        raise Refused(f"shard {shard} isn't to start: {fault}. {clock.remedy(shard)}")
    print(starts.described(shard))
    return 0


def described(settings: Settings, door: Door) -> str:
    """What a door lets in, and what that may ask."""
    names = [caller.name for caller in settings.callers(door.role)] if door.tls else []
    shown = ", ".join(names) or ("nobody" if door.tls else "whoever reaches it")
    may = ", ".join(f"{route.method} {route.target}" for route in routes.at(door))
    return (
        f"{door.name} ({door.role}) at {door.at}: {way(settings, door)}\n    for {shown}\n    {may}"
    )


def way(settings: Settings, door: Door) -> str:
    """What a door asks to be shown."""
    if not door.tls:
        return "nothing is shown, on this machine alone"
    is_either = door.role == "operator" and any(one.password for one in settings.operators)
    return "a certificate or a password is shown" if is_either else "a certificate is shown"


def faults(settings: Settings) -> list[str]:
    """What is missing or ends soon."""
    found = []
    if any(door.tls for door in settings.doors):
        tls = settings.tls
        for path, words in (
            (tls.certificate, ("x509", "-noout", "-enddate")),
            (tls.clients, ("x509", "-noout", "-enddate")),
            (tls.revoked, ("crl", "-noout", "-nextupdate")),
        ):
            found += ending(path, words)
    if not found:
        found += refused(settings)
    return found


def ending(path: str, words: tuple[str, ...]) -> list[str]:
    """What is wrong with the end of a certificate or of a list."""
    if not pathlib.Path(path).is_file():
        return [f"{path} isn't there: `office certificate office --host ..` makes it"]
    try:
        told = openssl(*words, "-in", path).strip().partition("=")[2]
    except Refused as fault:
        return [f"{path}: {fault}"]
    days = (time.mktime(time.strptime(told, "%b %d %H:%M:%S %Y %Z")) - time.time()) / clock.DAY
    return [f"{path} ends on {told}: renew it"] if days < SOON else []


def refused(settings: Settings) -> list[str]:
    """Why HAProxy doesn't take its configuration."""
    try:
        proxy.accepts(configuration.text(settings))
    except Fault as fault:
        return [str(fault)]
    return []
