"""Who does what on the page: each task with who may, the part of the page that has it, how it is done and
seen to be done, and how somebody would try who may not. A new task is a line of `TASKS`."""
from __future__ import annotations

import dataclasses
from collections.abc import Callable
from typing import Any

from support.callers import debit

from console import account_tasks, office_tasks
from console.desk import MONTH, Desk
from console.office import ACCOUNT, NOBODY
from console.person import Person


@dataclasses.dataclass(frozen=True)
class Tried:
    """How somebody tries who may not: what he isn't offered, and what he asks by hand instead; a form that
    he shows himself, with what is in it."""

    offered: str
    method: str
    path: str
    body: dict[str, Any] | str | None = None
    kind: str = "application/json"
    form: str = ""
    fields: dict[str, str] = dataclasses.field(default_factory=dict)
    at: str = ACCOUNT


@dataclasses.dataclass(frozen=True)
class Task:
    """A task; its part is named by the beginning of the id of its title."""

    who: tuple[str, ...]
    part: str
    do: Callable[[Desk, Person], None]
    tried: Tried | None = None


def enquiry(account: str, action: int) -> dict[str, Any]:
    """A request that asks for a price, or whether it would be paid."""
    return debit(account, "by-hand") | {"Requested-Action": action}


ALL, SELLERS, OFFICE, ONE = (
    ("shop", "operator", "officer"),
    ("shop", "operator"),
    ("operator", "officer"),
    ("operator",),
)
AGENT = "/office/agent"
MONEY = {"Amount": 5, "Reference": "by-hand"}
GIVEN = {"Blocks": 5, "Scope": 10, "Reference": "by-hand"}
CODE = {"Account": ACCOUNT, "Code": "999999999999", "Reference": "by-hand"}
ENDED = debit(ACCOUNT, f"voice-{ACCOUNT}", number=1) | {"CC-Request-Type": 3}

TASKS: dict[str, Task] = {
    "what has she": Task(ALL, "balance", account_tasks.balance),
    "what was charged, and when": Task(ALL, "charges", account_tasks.charges),
    "a month by day and by group": Task(ALL, "chart", account_tasks.month),
    "a month as a text": Task(ALL, "charges", account_tasks.text),
    "redeem a voucher of another shard": Task(
        SELLERS,
        "do",
        account_tasks.voucher,
        Tried(
            "#tab-redeem",
            "POST",
            f"{AGENT}/redeem",
            CODE,
            form="redeem",
            fields={"code": "999999999999"},
        ),
    ),
    "would it be paid, and what would it cost": Task(
        SELLERS,
        "do",
        account_tasks.price,
        Tried(
            "#tab-price",
            "POST",
            "/ccr",
            enquiry(ACCOUNT, 3),
            form="price",
            fields={"scope": "10", "count": "5"},
        ),
    ),
    "send what had no answer again, or leave it": Task(
        SELLERS,
        "waiting",
        account_tasks.answer_lost,
        Tried("#waiting", "POST", f"{AGENT}/redeem", CODE),
    ),
    "open an account": Task(
        ONE,
        "none",
        account_tasks.opening,
        Tried("#none", "PUT", f"/accounts/{NOBODY}", form="open", at=NOBODY),
    ),
    "credit it": Task(
        ONE,
        "do",
        account_tasks.credit,
        Tried(
            "#tab-credit",
            "POST",
            f"/accounts/{ACCOUNT}/credits",
            MONEY,
            form="credit",
            fields={"amount": "5"},
        ),
    ),
    "give an allowance": Task(
        ONE,
        "do",
        account_tasks.allowance,
        Tried(
            "#tab-allow",
            "POST",
            f"/accounts/{ACCOUNT}/allowances",
            GIVEN,
            form="allow",
            fields={"blocks": "5", "scope": "10"},
        ),
    ),
    "bar, and lift the bar": Task(
        ONE,
        "do",
        account_tasks.bar,
        Tried("#tab-bar", "POST", f"{AGENT}/bar/{ACCOUNT}", {}, form="bar"),
    ),
    "end a session": Task(
        ONE,
        "agent",
        account_tasks.end,
        Tried("[data-part='open sessions'] button", "POST", "/ccr", ENDED),
    ),
    "which sessions are open": Task(
        OFFICE,
        "agent",
        account_tasks.sessions,
        Tried("#agent", "GET", f"{AGENT}/account/{ACCOUNT}"),
    ),
    "why she was refused": Task(
        OFFICE,
        "agent",
        account_tasks.refusal,
        Tried("#agent", "GET", f"{AGENT}/account/{ACCOUNT}?since=1"),
    ),
    "what covered a charge": Task(
        OFFICE,
        "charges",
        account_tasks.covered,
        Tried("#charges th.covered", "GET", f"{AGENT}/account/{ACCOUNT}?month={MONTH}"),
    ),
    "a month as CSV": Task(
        OFFICE,
        "charges",
        account_tasks.table,
        Tried("#csv", "GET", f"{AGENT}/account/{ACCOUNT}?month={MONTH}"),
    ),
    "from one view to the other": Task(
        OFFICE, "sums", office_tasks.views, Tried("#views", "GET", f"{AGENT}/shards")
    ),
    "sums by day, group and shard": Task(
        OFFICE,
        "sums",
        office_tasks.sums,
        Tried("#sums", "GET", f"{AGENT}/sums?month={MONTH}", at="office"),
    ),
    "sums of another month": Task(
        OFFICE,
        "sums",
        office_tasks.sums_of_months,
        Tried("#sums", "GET", f"{AGENT}/sums?month=202601", at="office"),
    ),
    "the shards": Task(
        OFFICE,
        "shards",
        office_tasks.shards,
        Tried("#shards", "GET", f"{AGENT}/shards", at="office"),
    ),
    "the books that hold and come": Task(
        OFFICE, "books", office_tasks.books, Tried("#books", "GET", f"{AGENT}/books", at="office")
    ),
    "try a book": Task(
        OFFICE,
        "books",
        office_tasks.trial,
        Tried("#trial", "POST", f"{AGENT}/trial?from=1", "x", "application/toml", at="office"),
    ),
    "check vouchers": Task(
        OFFICE,
        "codes",
        office_tasks.codes,
        Tried("#check", "POST", f"{AGENT}/vouchers/check", "x", "text/csv", at="office"),
    ),
}
