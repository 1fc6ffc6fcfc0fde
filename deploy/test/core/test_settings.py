"""The office's file: what is refused, and by which name."""
from __future__ import annotations

import pathlib

import pytest

from office import settings
from office.faults import Unread

GOOD = """
[office]
shards = 4
[[door]]
name = "gateways"
role = "gateway"
at = "127.0.0.1:8080"
[[door]]
name = "scripts"
role = "script"
at = "/run/haproxy/office.sock"
[[gateway]]
name = "pgw-1"
"""
REFUSED = {
    "no TOML": (GOOD + "[[", "Invalid"),
    "an unknown table": (GOOD + "[extra]\na = 1\n", "extra: there is no such key"),
    "an unknown key": (GOOD.replace("shards = 4", "shard = 4"), "office: shard: there is no such"),
    "shards of text": (GOOD.replace("shards = 4", 'shards = "4"'), "no whole number"),
    "shards that are true": (GOOD.replace("shards = 4", "shards = true"), "no whole number"),
    "a hundred shards": (GOOD.replace("shards = 4", "shards = 100"), "isn't from 1 to 99"),
    "too many shards": (GOOD.replace("shards = 4", "shards = 60\nmore = 60"), "above 99"),
    "another role": (GOOD.replace('"gateway"', '"gate"', 1), "door 1: role: 'gate' isn't one of"),
    "a door without a name": (GOOD.replace('name = "gateways"', ""), "door 1: name is missing"),
    "a network without tls": (GOOD.replace("127.0.0.1", "0.0.0.0"), "is on a network"),
    "two doors of a name": (GOOD.replace('"scripts"', '"gateways"'), "'gateways' is there twice"),
    "two doors at a place": (
        GOOD + '[[door]]\nname = "b"\nrole = "gateway"\nat = "127.0.0.1:8080"\n',
        "another door is at",
    ),
    "a name with a space": (GOOD.replace("pgw-1", "pgw 1"), "isn't a name of"),
    "a name that ends a line": (GOOD.replace("pgw-1", "pgw\\nuser root"), "isn't a name of"),
    "a path with a quote": (GOOD.replace("office.sock", "office'.sock"), "a socket's path"),
    "scripts on a port": (GOOD.replace("/run/haproxy/office.sock", "127.0.0.1:19"), "at a socket"),
    "a watcher with tls": (
        GOOD + '[[door]]\nname = "w"\nrole = "watcher"\nat = "127.0.0.1:1"\ntls = true\n',
        "has no certificates",
    ),
    "browsers without hosts": (
        GOOD + '[[door]]\nname = "o"\nrole = "operator"\nat = "127.0.0.1:1"\n',
        "says its hosts",
    ),
    "a table for a list": (GOOD.replace("[[gateway]]", "[gateway]"), "is no list of tables"),
    "a plain password": (
        GOOD + '[[operator]]\nname = "ada"\npassword = "secret"\n',
        "`office password`",
    ),
}


def read(folder: pathlib.Path, text: str) -> settings.Settings:
    """The settings of a file with this text."""
    path = folder / "office.toml"
    path.write_text(text)
    return settings.read(path)


def test_a_file_is_read(tmp_path: pathlib.Path) -> None:
    told = read(tmp_path, GOOD)
    assert told.office.shards == 4
    assert told.office.first_port == 8100
    assert [door.name for door in told.doors] == ["gateways", "scripts"]
    assert told.gateways[0] == settings.Gateway(name="pgw-1", at_once=20, a_second=200)
    assert told.scripts() == "/run/haproxy/office.sock"


def test_an_empty_file_has_doors_on_this_machine_alone(tmp_path: pathlib.Path) -> None:
    told = read(tmp_path, "")
    assert {door.role for door in told.doors} >= {"gateway", "operator", "script"}
    assert all(door.is_here() and not door.tls for door in told.doors)


@pytest.mark.parametrize("text, said", REFUSED.values(), ids=list(REFUSED))
def test_a_wrong_file_is_refused_by_its_place(tmp_path: pathlib.Path, text: str, said: str) -> None:
    assert text != GOOD
    with pytest.raises(Unread, match=said.replace("[", r"\[").replace("(", r"\(")) as fault:
        read(tmp_path, text)
    assert fault.value.status == 2


def test_a_file_that_is_named_must_be_there(tmp_path: pathlib.Path) -> None:
    with pytest.raises(Unread):
        settings.read(tmp_path / "nothing.toml")
