"""Accounts that move from a shard to another one while both are served.

The word `move` calls `move`. Some accounts at a time are `moving` in HAProxy's map: their requests wait,
all others go on. What was asked for before has left the shard's queue, and has been answered; a copy of
the shard tells what they have; the requests of the plan are noted, and then sent to the other
shard; both are compared; the file of moved accounts names the new shard, and HAProxy goes by it.

Killed before the note is written, nothing has happened; after it, the guard sends the same requests
again, which have references, and ends the move. The requests of an account wait for the copy of its
shard and some milliseconds a bucket."""
from __future__ import annotations

import argparse
import contextlib
import dataclasses
import json
import os
import pathlib
import time
from collections.abc import Iterator

from office import copies, disk, locks, operate, places, program, proxy, units
from office.alone import alone
from office.archive import known, past
from office.carry import runtime
from office.carry.plan import Plan, Request
from office.client import Answer, Body, Client, compact
from office.faults import Refused
from office.progress import shown
from office.scratch import scratch
from office.settings import Settings
from office.shards import Homes, Shard, named
from office.tables import Database, opened

THERE, DONE = {"Refusal": "O1"}, 2001
RELOADED = "HAProxy was reloaded meanwhile: the accounts stay where they were"
PATIENCE = 60.0
# Seconds between two looks at a queue.
EACH = 0.005


@dataclasses.dataclass(frozen=True)
class Note:
    """What is to be done for accounts that move, once it is begun."""

    source: str
    target: str
    accounts: list[str]
    barred: list[str]
    requests: list[Request]
    buckets: dict[str, list[Body]]  # what each account has then, by `shape`
    archive: str  # the name of the archive that their rows go to
    process: str  # of HAProxy, which has the accounts wait


def note_of(settings: Settings) -> pathlib.Path:
    """Where the note lies while a move is under way."""
    return pathlib.Path(settings.office.databases) / "move.json"


def under_way(settings: Settings) -> contextlib.AbstractContextManager[pathlib.Path]:
    """One move at a time; the lock's file."""
    return locks.held(settings, "move.lock", "accounts are moving already")


@contextlib.contextmanager
def guarded(lock: pathlib.Path, arguments: argparse.Namespace) -> Iterator[None]:
    """A unit of systemd's ends what was begun, where this process is killed."""
    name = f"office-guard-move-{os.getpid()}-{time.monotonic_ns()}.service"
    command = pathlib.Path(__file__).resolve().parents[2] / "bin/office"
    file = str(arguments.file.absolute())
    again = [str(lock), str(command), "--file", file, "move", "--finish"]
    told = "--description=Ends a move of accounts when the word has ended"
    waits = ["sh", "-c", 'flock "$1" true; shift; exec "$@"', "sh", *again]
    units.run("systemd-run", "--quiet", "--collect", f"--unit={name}", told, *waits)
    try:
        yield
    finally:
        units.systemctl("stop", name)


def finish(settings: Settings, client: Client) -> None:
    """Ends what a move that was killed has begun, or takes it back."""
    path, there = note_of(settings), runtime.entries(settings)
    proxy.alone(settings)
    moving = [account for account, value in there.items() if value == runtime.MOVING]
    if path.exists():
        note = Note(**json.loads(path.read_text(encoding="utf-8")))
        if note.accounts and set(note.accounts) <= set(moving):
            carry_out(settings, client, note)
        else:
            # HAProxy was started anew meanwhile: its requests went where the file says.
            path.unlink()
    for left in pathlib.Path(settings.keeping.archive).glob(f"*-to-*.db{places.TURNING}"):
        left.unlink()
        known.drop(settings, left.name.removesuffix(f".db{places.TURNING}"))
    runtime.settle(settings, moving)


def move(
    settings: Settings, client: Client, source: Shard, target: Shard, those: list[str], batch: int
) -> tuple[int, list[str]]:
    """Moves accounts, so many at a time; how many moved, and a line for each that didn't."""
    moved, stay = 0, list[str]()
    parts = [those[at : at + batch] for at in range(0, len(those), batch)]
    for part in shown("move", parts):
        note, why = held(settings, client, source, target, part)
        stay += why
        if note.accounts:
            carry_out(settings, client, note)
            moved += len(note.accounts)
    return moved, stay


def held(
    settings: Settings, client: Client, source: Shard, target: Shard, those: list[str]
) -> tuple[Note, list[str]]:
    """Holds the requests of accounts, and notes what is to be done for those that can move; the others
    go on, with a line each."""
    proxy.alone(settings)
    process = proxy.process(settings)
    there, why = runtime.entries(settings), dict[str, str]()
    try:
        for account in those:
            runtime.put(settings, account, runtime.MOVING, there)
        drain(settings, source)
        for account in those:
            client.ask("GET", f"/accounts/{account}", shard=str(source))
            if "Account" in client.ask("GET", f"/accounts/{account}", shard=str(target)).body:
                why[account] = f"{account} stays: it has rows in shard {target} already"
        with copies.made(settings, [source]) as made, opened(made[0]) as database:
            plan = Plan(database, int(time.time()), lambda account: account in set(those))
            for session in plan.sessions:
                account = session.split()[0]
                why.setdefault(account, f"{account} stays: live session {session}")
            name = past.name_of_move(settings, str(source), str(target), plan.at)
            free = [one for one in plan.accounts if one not in why]
            note = noted(plan, source, target, free, name, process)
            if free:
                archive(settings, database, note)
        if free:
            write(settings, note)
    except BaseException:
        runtime.settle(settings, those)
        raise
    runtime.settle(settings, [account for account in those if account not in note.accounts])
    return note, list(why.values())


def drain(settings: Settings, source: Shard) -> None:
    """Waits until nothing is left in a shard's queue of what came before the accounts were held: who
    asks little goes first there, so a request of this word would pass those of a busy gateway. What
    has waited for `[waits] queue` has left it."""
    end = time.monotonic() + settings.waits.queue + 1
    while int(proxy.shards_state(settings)[str(source)]["qcur"]):
        if time.monotonic() > end:
            break
        time.sleep(EACH)


def archive(settings: Settings, database: Database, note: Note) -> None:
    """Keeps the rows of the accounts of a note, under a name that isn't an archive's yet."""
    path = archive_of(settings, note)
    folder = path.parent
    folder.mkdir(mode=0o750, parents=True, exist_ok=True)
    program.give(settings, folder)
    with scratch(folder, ".move-") as place:
        program.give(settings, place)
        made = place / "rows.db"
        past.extract(settings, database, note.accounts, made)
        copies.make_whole(made, path)
    os.chmod(path, 0o400)
    program.give(settings, path)
    disk.sync(folder)


def archive_of(settings: Settings, note: Note) -> pathlib.Path:
    """Where the rows lie of accounts that are moving."""
    return pathlib.Path(settings.keeping.archive) / f"{note.archive}.db{places.TURNING}"


def in_force(settings: Settings, note: Note) -> None:
    """Has what the accounts were answered before be answered by their archive from now on, and notes
    where they live; refused, neither is so."""
    path = archive_of(settings, note)
    made = path.with_name(path.name.removesuffix(places.TURNING))
    try:
        if path.exists():
            with opened(path, is_still=True) as database:
                known.put(settings, note.archive, known.of_copy(database))
            os.replace(path, made)
            disk.sync(made.parent)
        if note.process != proxy.process(settings):
            raise Refused(RELOADED)
        runtime.write(settings, note.accounts, note.target)
        if not proxy.is_left(settings, note.process) and not is_read(settings, note):
            runtime.write(settings, note.accounts, note.source)
            raise Refused(RELOADED)
    except BaseException:
        made.unlink(missing_ok=True)
        known.drop(settings, note.archive)
        raise


def is_read(settings: Settings, note: Note) -> bool:
    """Whether the process of HAProxy that came meanwhile has read where the accounts live now. One that
    read the file before asks the old shard."""
    proxy.replaced(settings, note.process)
    there, homes = runtime.entries(settings), Homes(settings)
    found = {there.get(account, str(homes.hashed(account))) for account in note.accounts}
    return found == {note.target}


def noted(
    plan: Plan, source: Shard, target: Shard, those: list[str], name: str, process: str
) -> Note:
    """The note of a plan, for some of its accounts."""
    wanted = set(those)
    requests = [one for one in plan.requests() if account_of(one) in wanted]
    buckets: dict[str, list[Body]] = {account: [] for account in those}
    for one in plan.live:
        if one.account in wanted:
            buckets[one.account].append(
                shape(one.starts, one.ends, one.scope, one.is_blocks, one.left)
            )
    barred = [account for account in those if plan.accounts[account]]
    return Note(str(source), str(target), those, barred, requests, buckets, name, process)


def account_of(request: Request) -> str:
    """The account that a request of a plan is for."""
    _, path, body = request
    if path == "/ccr":
        return str((body or {})["Subscription-Id"]["Subscription-Id-Data"])
    return path.split("/")[2]


def write(settings: Settings, note: Note) -> None:
    """Writes the note, whole."""
    disk.write(note_of(settings), json.dumps(dataclasses.asdict(note)), 0o600)


def carry_out(settings: Settings, client: Client, note: Note) -> None:
    """Does what a note says, from wherever it was stopped; refused, the accounts go on where the file
    says. Signals wait meanwhile, so that no account waits for a word that has gone."""
    with units.undisturbed():
        try:
            fill(client, note)
            bar(settings, client, note)
            for account in note.accounts:
                compare(account, note, client.ask("GET", f"/accounts/{account}", shard=note.target))
            in_force(settings, note)
        finally:
            archive_of(settings, note).unlink(missing_ok=True)
            runtime.settle(settings, note.accounts)
            note_of(settings).unlink()


def fill(client: Client, note: Note) -> None:
    """Sends the requests of a note to the new shard."""
    for method, path, body in note.requests:
        answer = client.ask(method, path, body, shard=note.target)
        if answer.body != THERE and answer.body.get("Result-Code") != DONE:
            raise Refused(f"{method} {path} {compact(body or {})}: {answer.compact()}")


def bar(settings: Settings, client: Client, note: Note) -> None:
    """Bars accounts in their new shard, which is stopped for it."""
    target = named(settings, note.target)
    open_yet = [
        account
        for account in note.barred
        if not client.ask("GET", f"/accounts/{account}", shard=note.target).body["Barred"]
    ]
    if open_yet:
        with alone(settings, target):
            operate.is_now(target, operate.last_moment(target))
            for account in open_yet:
                program.done(settings, "bar", target.database, account)


def compare(account: str, note: Note, answer: Answer) -> None:
    """Refuses an account that hasn't in its new shard what it had."""
    told = answer.body
    found = [
        shape(one["From"], one["Until"], one.get("Scope"), "Unit" in one, one["Available"])
        for one in told["Buckets"]
        if one["Available"]
    ]
    now = told["Moment"]
    wanted = [one for one in note.buckets[account] if one["ends"] > now]
    if found != wanted or told["Barred"] != (account in note.barred):
        raise Refused(f"{account} has {found} in shard {note.target}, and had {wanted}")


def shape(starts: int, ends: int, scope: int | None, is_blocks: bool, left: int) -> Body:
    """What both shards have of a bucket."""
    return {"starts": starts, "ends": ends, "scope": scope, "is_blocks": is_blocks, "left": left}
