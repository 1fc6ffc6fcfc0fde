"""The doors' log: one JSON line an answer, as fields that HAProxy writes and `office trace` reads.

`doors` puts `haproxy(Answered)` and `haproxy(Broken)` into the configuration; the words that read
the log call `read`. Each field says how HAProxy writes it, so that a name stands here alone. A text
that isn't known is `-`; what a client sent is escaped, so that it stays a text."""
from __future__ import annotations

import dataclasses
import json
from typing import Any

WRITTEN, NONE = "written", "-"


def numeric(expression: str) -> Any:
    """A field that is a number, by an expression of HAProxy's log format."""
    return dataclasses.field(metadata={WRITTEN: expression})


def word(expression: str) -> Any:
    """A field that is a text of HAProxy's own."""
    return dataclasses.field(metadata={WRITTEN: f'"{expression}"'})


def told(name: str) -> Any:
    """A field that is a text of the client or the shard: the variable `txn.NAME` of HAProxy."""
    return word(f"%[var(txn.{name},{NONE}),json(utf8s)]")


@dataclasses.dataclass(frozen=True, kw_only=True)
class Answered:
    """An answer, of a shard or of a door."""

    moment: float = numeric("%Ts.%ms")  # when its connection or request began, since 1970
    door: str = word("%f")
    peer: str = word("%ci:%cp")
    who: str = told("who")  # the name of a certificate, an operator's, or the door's
    what: str = told("what")  # method and target
    account: str = told("account")
    session: str = told("session")  # Session-Id (RFC 8506, 8.22)
    type: str = told("type")  # CC-Request-Type (8.3)
    number: str = told("number")  # CC-Request-Number (8.2)
    reference: str = told("reference")
    amount: str = told("amount")  # of a credit, or the blocks of an allowance
    granted: str = told("granted")  # units granted to the first service
    code: str = told("code")  # Result-Code
    service: str = told("service")  # Result-Code of the first service
    refusal: str = told("refusal")  # O1 to O7
    why: str = told("why")  # why a door turned it away
    status: int = numeric("%ST")
    shard: str = word("%s")  # its number; <NOSRV> where none was asked
    # Milliseconds until the request had come, in the queue, until the shard answered (-1 where it
    # came to none), and of the whole.
    came: int = numeric("%TR")
    waited: int = numeric("%Tw")
    answered: int = numeric("%Tr")
    took: int = numeric("%Ta")
    bytes: int = numeric("%B")
    end: str = word("%ts")  # HAProxy's two letters of how it ended
    id: str = word("%ID")  # the client has it as X-Request-Id


@dataclasses.dataclass(frozen=True, kw_only=True)
class Broken:
    """A connection that ended before its first request: a TLS handshake that failed."""

    moment: float = numeric("%Ts.%ms")
    door: str = word("%f")
    peer: str = word("%ci:%cp")
    why: str = word("connection")
    fault: str = word("%[fc_err_str]")
    tls: str = word("%[ssl_fc_err_str]")
    verify: str = word("%[ssl_c_err]")  # 23: revoked
    id: str = word("%ID")


def haproxy(kind: type[Answered] | type[Broken]) -> str:
    """The line as a log format of HAProxy's."""
    members = (f'"{each.name}":{each.metadata[WRITTEN]}' for each in dataclasses.fields(kind))
    return "{" + ",".join(members) + "}"


def read(text: str) -> Answered | Broken | None:
    """A line of the log; none where it isn't one, such as a notice of HAProxy's."""
    try:
        value = json.loads(text)
    except ValueError:
        return None
    if not isinstance(value, dict):
        return None
    if fits(Answered, value):
        return Answered(**value)
    return Broken(**value) if fits(Broken, value) else None


def fits(kind: type[Answered] | type[Broken], value: dict[str, object]) -> bool:
    """Whether an object has the members of a line, and no others."""
    kinds: dict[str, tuple[type, ...]] = {"float": (float, int), "int": (int,), "str": (str,)}
    fields = {each.name: kinds[str(each.type)] for each in dataclasses.fields(kind)}
    return fields.keys() == value.keys() and all(
        isinstance(value[name], fields[name]) and not isinstance(value[name], bool)
        for name in fields
    )
