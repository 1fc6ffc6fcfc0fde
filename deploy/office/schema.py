"""Reads tables of a TOML file into frozen dataclasses, strictly.

`settings` calls this, and so does a module that has a table of its own. A field is made by `whole`,
`text`, `flag`, `texts`, `one` or `many`, which carry its rule; a field `first_port` is the key
`first-port`. A key that no field has, a key that is missing and a value that doesn't fit are
`Unread`, with the place in the file. Linear in the keys."""
from __future__ import annotations

import dataclasses
import re
from typing import Any, Protocol, TypeVar, cast

from office.faults import Unread

Table = TypeVar("Table")
RULE = "rule"


class Rule(Protocol):
    """What a key may say."""

    def read(self, where: str, value: object) -> object:
        """The value for the field; raises Unread with the place where it doesn't fit."""


@dataclasses.dataclass(frozen=True)
class Whole:
    """A whole number within bounds."""

    least: int
    most: int

    def read(self, where: str, value: object) -> int:
        if type(value) is not int:
            raise Unread(f"{where}: {value!r} is no whole number")
        if not self.least <= value <= self.most:
            raise Unread(f"{where}: {value} isn't from {self.least} to {self.most}")
        return value


@dataclasses.dataclass(frozen=True)
class Text:
    """A text of a form."""

    form: str
    said: str

    def read(self, where: str, value: object) -> str:
        if not isinstance(value, str):
            raise Unread(f"{where}: {value!r} is no text")
        if not re.fullmatch(self.form, value):
            raise Unread(f"{where}: {value!r} isn't {self.said}")
        return value


@dataclasses.dataclass(frozen=True)
class Flag:
    """True or false."""

    def read(self, where: str, value: object) -> bool:
        if not isinstance(value, bool):
            raise Unread(f"{where}: {value!r} is neither true nor false")
        return value


@dataclasses.dataclass(frozen=True)
class Listed:
    """A list, each element by a rule."""

    each: Rule

    def read(self, where: str, value: object) -> tuple[object, ...]:
        if not isinstance(value, list):
            raise Unread(f"{where}: {value!r} is no list")
        return tuple(self.each.read(f"{where} {at}", one) for at, one in enumerate(value, 1))


@dataclasses.dataclass(frozen=True)
class One:
    """A table."""

    kind: type[Any]

    def read(self, where: str, value: object) -> object:
        return table(self.kind, where, value)


@dataclasses.dataclass(frozen=True)
class Many:
    """A list of tables."""

    kind: type[Any]

    def read(self, where: str, value: object) -> tuple[object, ...]:
        if not isinstance(value, list):
            raise Unread(f"{where} is no list of tables ([[{where}]])")
        return tuple(table(self.kind, f"{where} {at}", one) for at, one in enumerate(value, 1))


def made(rule: Rule, default: object, key: str | None = None) -> Any:
    """A field of this rule; one whose default is None must be in the file."""
    metadata = {RULE: rule, "key": key}
    if default is None:
        return dataclasses.field(metadata=metadata)
    return dataclasses.field(default=default, metadata=metadata)


def whole(default: int | None, least: int, most: int) -> int:
    """A field that is a whole number from `least` to `most`."""
    return cast(int, made(Whole(least, most), default))


def text(default: str | None, form: str, said: str) -> str:
    """A field that is a text of a form (a regular expression), which `said` says in words."""
    return cast(str, made(Text(form, said), default))


def texts(form: str, said: str) -> tuple[str, ...]:
    """A field that is a list of texts of a form, empty by default."""
    return cast(tuple[str, ...], made(Listed(Text(form, said)), ()))


def flag(default: bool) -> bool:
    """A field that is true or false."""
    return cast(bool, made(Flag(), default))


def one(kind: type[Table]) -> Table:
    """A field that is a table; where the file hasn't it, each of its keys has its default."""
    metadata = {RULE: One(kind), "key": None}
    return dataclasses.field(default_factory=kind, metadata=metadata)


def many(kind: type[Table], key: str) -> tuple[Table, ...]:
    """A field that is a list of tables `[[key]]`, empty by default."""
    return cast(tuple[Table, ...], made(Many(kind), (), key))


def table(kind: type[Table], where: str, value: object) -> Table:
    """A table of the file as its dataclass."""
    if not isinstance(value, dict):
        raise Unread(f"{where} is no table")
    fields = {key_of(each): each for each in dataclasses.fields(cast(Any, kind))}
    unknown = sorted(str(key) for key in value if key not in fields)
    if unknown:
        raise Unread(f"{place(where, unknown[0])}: there is no such key")
    told = {
        each.name: each.metadata[RULE].read(place(where, key), value[key])
        for key, each in fields.items()
        if is_said(where, key, each, value)
    }
    return kind(**told)


def key_of(field: dataclasses.Field[Any]) -> str:
    """A field's key in the file."""
    return str(field.metadata.get("key") or field.name.replace("_", "-"))


def place(where: str, key: str) -> str:
    """The place of a key."""
    return f"{where}: {key}" if where else key


def is_said(where: str, key: str, field: dataclasses.Field[Any], value: dict[str, Any]) -> bool:
    """Whether the file has the key; refused where it must."""
    none = dataclasses.MISSING
    if key not in value and field.default is none and field.default_factory is none:
        raise Unread(f"{place(where, key)} is missing")
    return key in value
