"""Codes of a file of vouchers, looked at before it is imported: by the program's own word over a copy,
and by who has a code already. Nothing is imported.

It costs a copy of the shard that would get the file, and a walk over all vouchers."""
from __future__ import annotations

import collections
import pathlib
import re
import tempfile
from collections.abc import Iterator

from office import program, shards, vouchers
from office.agent.asked import Asked, Body, Office
from office.agent.kept import Copy
from office.faults import Unread
from office.tables import opened

# Faults in one answer: the first ones.
MOST = 200
COUNTS = re.compile("new ([0-9]+) present ([0-9]+) conflicting ([0-9]+)")
FAULT = re.compile("ocs: voucher fault ([0-9]+) at record ([0-9]+)")
# What the program says of a file (docs/FORMATS.md, "Files of vouchers").
SAID = {
    "1": "the header is code,amount,days,scope",
    "2": "a record has four fields",
    "3": "a code is 12 digits",
    "4": "an amount is 1 to 10^15 micro-units",
    "5": "days are 1 to 3,650, or empty",
    "6": "a scope is a rating group, 0 to 4,294,967,295, or empty",
}
FREE = "SELECT count(*) FROM vouchers WHERE account IS NULL"


def check(office: Office, asked: Asked) -> Body:
    """Whether the file may be imported, into which shard, and what stands against it."""
    asked.told()
    if not asked.text().strip():
        raise Unread("the body is empty: a header code,amount,days,scope and a voucher a line")
    with tempfile.TemporaryDirectory() as folder, office.kept.all() as copies:
        file = pathlib.Path(folder) / "vouchers.csv"
        file.write_bytes(asked.body)
        listed = vouchers.codes_of(file)
        having = {
            copy.shard.number: set(vouchers.there(copy.database, set(listed))) for copy in copies
        }
        shard = chosen(copies, having)
        told, faults = by_program(office, shard, file)
        faults += [*twice(listed), *elsewhere(having, shard), *archived(office, set(listed))]
        as_of = min(copy.moment for copy in copies)
    return {
        "as_of": as_of,
        "shard": shard,
        "codes": len(listed),
        "good": not faults,
        "faults": faults[:MOST],
        "faults_left_out": max(0, len(faults) - MOST),
    } | told


def chosen(copies: list[Copy], having: dict[str, set[str]]) -> str:
    """The shard that `office import` would choose: the one that has codes of the file, else the one
    of the hash with the fewest that aren't spent."""
    having_any = [shard for shard, codes in having.items() if codes]
    free = {
        copy.shard.number: int(copy.database.one(FREE)) for copy in copies if copy.shard.is_hashed
    }
    return having_any[0] if having_any else min(free, key=lambda shard: (free[shard], shard))


def by_program(office: Office, shard: str, file: pathlib.Path) -> tuple[Body, list[Body]]:
    """What the program's word says over a copy of the shard: its counts, or its first fault."""
    with office.kept.twin(shards.named(office.settings, shard)) as (twin, _):
        with program.readable(office.settings, file) as readable:
            ended = program.run(office.settings, "import", twin, readable)
    told = (ended.stdout + ended.stderr).strip()
    counts = COUNTS.fullmatch(told)
    if counts:
        new, present, conflicting = map(int, counts.groups())
        fault = f"{conflicting} codes are there with other terms, or twice in the file"
        faults = [fault_of("", fault)] if conflicting else []
        return {"new": new, "present": present, "conflicting": conflicting}, faults
    fits = FAULT.fullmatch(told)
    said = f"record {fits[2]}: {SAID.get(fits[1], told)}" if fits else told
    return {}, [fault_of("", said)]


def twice(listed: list[str]) -> Iterator[Body]:
    """Codes that the file has more than once."""
    for code, count in collections.Counter(listed).items():
        if count > 1:
            yield fault_of(code, f"is {count} times in the file")


def elsewhere(having: dict[str, set[str]], shard: str) -> Iterator[Body]:
    """Codes that another shard has."""
    for other, codes in having.items():
        if other != shard:
            for code in sorted(codes):
                yield fault_of(
                    code, f"shard {other} has it: in shard {shard} too it could be spent twice"
                )


def archived(office: Office, codes: set[str]) -> Iterator[Body]:
    """Codes that an archive has as spent."""
    for path in vouchers.archives(office.settings):
        with opened(path, is_still=True) as database:
            spent = [code for code, by in vouchers.there(database, codes).items() if by]
        for code in sorted(spent):
            yield fault_of(code, f"{path.name} has it as spent: it could be spent again")


def fault_of(code: str, fault: str) -> Body:
    """What stands against a code, or against the whole file."""
    return {"code": code, "fault": fault}
