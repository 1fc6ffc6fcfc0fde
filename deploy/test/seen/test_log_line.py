"""The log's line: what HAProxy is told to write, and what is read of it."""
from __future__ import annotations

import dataclasses
import json

import pytest

from office import log_line
from office.log_line import Answered, Broken

NUMBERS = {"moment": 1767225600.25, "status": 200, "came": 0, "waited": 0, "answered": 1, "took": 1}


def text_of(kind: type[Answered] | type[Broken], **told: object) -> str:
    """A line of this kind."""
    value: dict[str, object] = {each.name: "-" for each in dataclasses.fields(kind)}
    value |= {name: number for name, number in NUMBERS.items() if name in value} | told
    return json.dumps(value | ({"bytes": 90} if kind is Answered else {}))


@pytest.mark.parametrize("kind", [Answered, Broken])
def test_what_is_written_is_an_object_with_each_field_once(
    kind: type[Answered] | type[Broken],
) -> None:
    told = log_line.haproxy(kind)
    for each in dataclasses.fields(kind):
        assert told.count(f'"{each.name}":') == 1
    assert "'" not in told.replace("'-'", "") and len(told) < 2000


def test_lines_are_read() -> None:
    line = log_line.read(text_of(Answered, who='x","who":"root'))
    assert isinstance(line, Answered) and line.who == 'x","who":"root'
    assert (line.moment, line.status, line.bytes) == (1767225600.25, 200, 90)
    assert isinstance(log_line.read(text_of(Broken)), Broken)


@pytest.mark.parametrize(
    "text",
    [
        "",
        "[NOTICE] a worker was forked",
        "null",
        "[1]",
        text_of(Answered)[:-9],
        text_of(Answered, status="200"),
        text_of(Answered, status=True),
        text_of(Answered, more="x"),
        '{"moment":1}',
    ],
)
def test_what_is_no_line_is_told_as_none(text: str) -> None:
    assert log_line.read(text) is None
