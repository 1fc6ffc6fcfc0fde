"""Loads accounts, credits and allowances of a file, by the thousand.

    office load FILE

FILE is CSV with a header of `account` and any of `amount`, `blocks`, `until`, `scope`, `reference`:
micro-units of money, or blocks of a rating group in `scope`; `until` is seconds since 1970. Empty
fields aren't said. A line without `amount` and `blocks` opens its account and gives it nothing.

Each credit has a reference: the line's own, else one of --name (the file's name) and of how often
its account was named so far. So the same file again, after a stop or by mistake, does nothing twice,
also where lines of other accounts came in between; a line that says something else under the same
reference is refused (O5). The file is read to its end before anything is asked.

Prints how many accounts were opened, were there, and how many credits they have. Lines that were
refused are in FILE.refused with their answers, and the status is 1."""
from __future__ import annotations

import argparse
import collections
import concurrent.futures
import contextlib
import csv
import dataclasses
import json
import pathlib
import re
import threading
from collections.abc import Iterator

from office import options
from office.client import Body, Client
from office.faults import Unread
from office.progress import shown
from office.settings import Settings

COLUMNS = {"account", "amount", "blocks", "until", "scope", "reference"}
# The bounds of docs/FORMATS.md ("Credits", "Allowances").
BOUNDS = {
    "Amount": (1, 10**15),
    "Blocks": (1, 10**9),
    "Until": (1, 4_102_444_800),
    "Scope": (0, 4_294_967_295),
}
ACCOUNT, REFERENCE = re.compile("[0-9]{1,15}"), re.compile("[!-~]{1,64}")
OPENED, THERE = {"Result-Code": 2001}, {"Refusal": "O1"}
# How long an answer is waited for: a shard may be copied or started meanwhile.
PATIENCE = 120.0


@dataclasses.dataclass(frozen=True)
class Line:
    """A line of the file, and the body of its credit or allowance if it has one."""

    number: int
    account: str
    body: Body | None

    def route(self) -> str:
        """The route that the body goes to."""
        kind = "allowances" if self.body and "Blocks" in self.body else "credits"
        return f"/accounts/{self.account}/{kind}"


@dataclasses.dataclass
class Done:
    """What became of an account's lines."""

    opened: int = 0
    there: int = 0
    credited: int = 0
    refused: list[tuple[Line, str]] = dataclasses.field(default_factory=list)


def add(parser: argparse.ArgumentParser) -> None:
    """Adds the word's arguments."""
    parser.add_argument("lines", type=pathlib.Path, metavar="FILE")
    parser.add_argument("--name", default="", help="of the references (the file's name)")
    parser.add_argument(
        "--connections",
        type=int,
        default=4,
        choices=range(1, 65),
        metavar="N",
        help="requests at once (%(default)s)",
    )
    options.dry_run(parser)


def run(settings: Settings, arguments: argparse.Namespace) -> int:
    """Carries the lines out, those of an account in their order; 1 where one was refused."""
    told = by_account(arguments.lines, arguments.name or arguments.lines.stem)
    if arguments.dry_run:
        bodies = sum(line.body is not None for each in told for line in each)
        print(f"accounts {len(told)} credits {bodies} would be asked for")
        return 0
    total, ends = Done(), threading.Event()
    with concurrent.futures.ThreadPoolExecutor(arguments.connections) as pool:
        clients = Clients(settings)
        asked = [pool.submit(carried_out, clients, ends, each) for each in told]
        with stopping(ends):
            for future in shown("load", asked):
                gather(total, future.result())
    print(
        f"opened {total.opened} there {total.there} credited {total.credited} "
        f"refused {len(total.refused)}"
    )
    return report(arguments.lines, total)


@contextlib.contextmanager
def stopping(ends: threading.Event) -> Iterator[None]:
    """Whatever happens, accounts that weren't begun are left."""
    try:
        yield
    finally:
        ends.set()


def gather(total: Done, one: Done) -> None:
    """Adds what became of an account."""
    total.opened += one.opened
    total.there += one.there
    total.credited += one.credited
    total.refused += one.refused


class Clients(threading.local):
    """A client for each thread."""

    def __init__(self, settings: Settings) -> None:
        super().__init__()
        self.client = Client(settings, patience=PATIENCE)


def carried_out(clients: Clients, ends: threading.Event, lines: list[Line]) -> Done:
    """Opens an account and gives it what its lines say."""
    done = Done()
    if ends.is_set():
        return done
    answer = clients.client.ask("PUT", f"/accounts/{lines[0].account}")
    if answer.body not in (OPENED, THERE):
        done.refused = [(line, answer.compact()) for line in lines]
        return done
    done.opened, done.there = int(answer.body == OPENED), int(answer.body == THERE)
    for line in lines:
        if line.body is None:
            continue
        answer = clients.client.ask("POST", line.route(), line.body)
        if "Bucket" in answer.body:
            done.credited += 1
        else:
            done.refused.append((line, answer.compact()))
    return done


def report(file: pathlib.Path, total: Done) -> int:
    """Writes the lines that were refused beside the file, in its order."""
    path = file.with_name(file.name + ".refused")
    if not total.refused:
        path.unlink(missing_ok=True)
        return 0
    with path.open("w", encoding="utf-8", newline="") as stream:
        out = csv.writer(stream)
        out.writerow(["line", "account", "asked", "answer"])
        for line, answer in sorted(total.refused, key=lambda each: each[0].number):
            out.writerow([line.number, line.account, json.dumps(line.body), answer])
    return 1


def by_account(file: pathlib.Path, name: str) -> list[list[Line]]:
    """The lines of a file, by their accounts."""
    found = collections.defaultdict[str, list[Line]](list)
    try:
        with file.open(encoding="utf-8-sig", newline="") as stream:
            rows = csv.DictReader(stream, strict=True)
            header = set(rows.fieldnames or [])
            if "account" not in header or header - COLUMNS:
                raise Unread(f"{file}: its header isn't account and any of {sorted(COLUMNS)[1:]}")
            for row in rows:
                where = f"{file}: line {rows.line_num}"
                account = row["account"]
                count = 1 + sum(line.body is not None for line in found[account])
                found[account].append(line_of(where, rows.line_num, row, f"{name}/{count}"))
    except (OSError, UnicodeDecodeError, csv.Error) as fault:
        raise Unread(f"{file}: {fault}") from fault
    return list(found.values())


def line_of(where: str, number: int, row: dict[str, str | None], reference: str) -> Line:
    """A row of the file."""
    account = row["account"] or ""
    if None in row or None in row.values():
        raise Unread(f"{where}: it hasn't as many fields as the header")
    if not ACCOUNT.fullmatch(account):
        raise Unread(f"{where}: {account!r} is no account: 1 to 15 digits")
    body: Body = {
        key: whole(where, key, str(row[key.lower()])) for key in BOUNDS if row.get(key.lower())
    }
    if not body and not row.get("reference"):
        return Line(number, account, None)
    if ("Amount" in body) == ("Blocks" in body):
        raise Unread(f"{where}: either an amount or blocks")
    if "Blocks" in body and "Scope" not in body:
        raise Unread(f"{where}: blocks have a scope, their rating group")
    body["Reference"] = row.get("reference") or reference
    if not REFERENCE.fullmatch(body["Reference"]):
        raise Unread(f"{where}: {body['Reference']!r} is no reference (--name gives them another)")
    return Line(number, account, body)


def whole(where: str, key: str, text: str) -> int:
    """A number of a field within its bounds."""
    least, most = BOUNDS[key]
    if not re.fullmatch("[0-9]{1,16}", text) or not least <= int(text) <= most:
        raise Unread(f"{where}: {key.lower()} {text!r} isn't {least} to {most}")
    return int(text)
