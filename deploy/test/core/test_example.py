"""deploy/office.toml is a whole file of an office: it is read, and has each key there is."""
from __future__ import annotations

import dataclasses
import pathlib
import re
import tomllib
from typing import Any

import pytest

from office import schema, settings

FILE = pathlib.Path(__file__).resolve().parents[2] / "office.toml"
TEXT = FILE.read_text(encoding="utf-8")
# The tables of two machines are comments at its end.
MACHINES = re.sub(r"^# ?", "", TEXT[TEXT.index("# [cluster]") :], flags=re.M)
VALUES: dict[str, Any] = tomllib.loads(TEXT + MACHINES)
TABLES = {schema.key_of(each): each for each in dataclasses.fields(settings.Settings)}
# Keys that the example shows at a gateway alone, and a hash that belongs to nobody.
LEFT_OUT = {
    "shop": {"at-once"},
    "operator": {"at-once", "a-second", "password"},
}


@pytest.mark.parametrize("name", list(TABLES))
def test_each_key_is_in_the_example(name: str) -> None:
    kind = TABLES[name].metadata[schema.RULE].kind
    keys = {schema.key_of(each) for each in dataclasses.fields(kind)}
    rows = VALUES[name] if isinstance(VALUES[name], list) else [VALUES[name]]
    shown = {key for row in rows for key in row}
    assert keys - shown == LEFT_OUT.get(name, set())


def test_its_values_are_the_defaults() -> None:
    told, usual = settings.read(FILE), settings.Settings()
    for name in ("office", "haproxy", "waits", "tls", "keeping", "measures", "agent", "diameter"):
        assert getattr(told, name) == getattr(usual, name)


def test_its_doors_have_names_who_may_come() -> None:
    told = settings.read(FILE)
    assert [door.name for door in told.doors if not door.is_here()] == [
        "gateways",
        "shops",
        "operators",
    ]
    assert all(door.tls for door in told.doors if not door.is_here())
    assert told.callers("gateway") and told.callers("shop") and told.callers("operator")


def test_its_machines_are_read(tmp_path: pathlib.Path) -> None:
    assert not settings.read(FILE).machines
    path = tmp_path / "office.toml"
    path.write_text(TEXT + MACHINES, encoding="utf-8")
    told = settings.read(path)
    assert told.cluster.token == settings.Settings().cluster.token
    assert [machine.name for machine in told.machines] == ["m1", "m2", "m3"]
