"""A line of the log as a sentence, for each kind of answer."""
from __future__ import annotations

import dataclasses
from typing import Any

import pytest

from office.log_line import Answered
from office.seen.sentences import sentence

MEMBERS: dict[str, Any] = {
    **{"moment": 1767225600.25, "door": "gateways", "peer": "10.1.2.3:40000", "who": "pgw-1"},
    **{"what": "POST /ccr", "account": "49151", "session": "-", "type": "-", "number": "-"},
    **{"reference": "-", "amount": "-", "granted": "-", "code": "-", "service": "-"},
    **{"refusal": "-", "why": "-", "status": 200, "shard": "04", "came": 0, "waited": 0},
    **{"answered": 1, "took": 1, "bytes": 90, "end": "--", "id": "0123456789abcdef"},
}
PLAIN = Answered(**MEMBERS)
INITIAL = {"session": "s1", "type": "1", "number": "0"}
CREDIT = {"what": "POST /accounts/49151/credits", "reference": "c1", "amount": "1000000"}


def told(**members: Any) -> str:
    """What is told of a line that differs from the plain one in these."""
    text = sentence(dataclasses.replace(PLAIN, **members))
    begins, ends = "2026-01-01 00:00:00.250 pgw-1 at gateways: ", " [01234567]"
    assert text.startswith(begins) and text.endswith(ends)
    return text[len(begins) : -len(ends)]


@pytest.mark.parametrize(
    ("members", "text"),
    [
        (
            INITIAL | {"code": "2001", "service": "2001", "granted": "600"},
            "initial request 0 of session s1: accepted (2001), 600 granted",
        ),
        (
            {"session": "s1", "type": "2", "number": "7", "code": "2001", "service": "4012"},
            "update 7 of session s1: denied, no money for it (4012)",
        ),
        (
            {"session": "s1", "type": "3", "number": "8", "code": "5002"},
            "termination 8 of session s1: refused, no such session is open (5002)",
        ),
        (
            {"session": "e", "type": "4", "number": "0", "code": "4010"},
            "event 0 of session e: denied, the account is barred (4010)",
        ),
        (
            INITIAL | {"code": "5012", "status": 200},
            "initial request 0 of session s1: refused, a number would pass its limit (5012)",
        ),
        (
            INITIAL | {"code": "5012", "status": 503},
            "initial request 0 of session s1: not done, the shard's disk, memory or clock failed (5012)",
        ),
        (CREDIT | {"code": "2001"}, "credit of 1000000 under c1: accepted (2001)"),
        (
            CREDIT | {"refusal": "O5"},
            "credit of 1000000 under c1: refused, the reference was used for something else (O5)",
        ),
        (
            {"what": "POST /accounts/49151/allowances", "reference": "a1", "amount": "60"}
            | {"code": "2001"},
            "allowance of 60 under a1: accepted (2001)",
        ),
        (
            {"what": "POST /vouchers/123456789012/redeem", "reference": "r1", "refusal": "O4"},
            "redemption under r1: refused, the voucher is spent (O4)",
        ),
        (
            {"what": "PUT /accounts/49151", "refusal": "O1"},
            "opening /accounts/49151: refused, the account is there already (O1)",
        ),
        ({"what": "GET /accounts/49151"}, "reading /accounts/49151: answered"),
        (
            {"what": "GET /accounts/49151/statement/202601"},
            "reading /accounts/49151/statement/202601: answered",
        ),
        (
            CREDIT | {"why": "read", "status": 403},
            "credit of 1000000 under c1: turned away (403), it may only read",
        ),
        (
            INITIAL | {"why": "another", "status": 403},
            "initial request 0 of session s1: turned away (403), another",
        ),
        (INITIAL | {"status": 503, "end": "SC"}, "initial request 0 of session s1: not done (503)"),
        (
            INITIAL | {"status": 504, "end": "sH"},
            "initial request 0 of session s1: no answer came (504); it may be done",
        ),
        (
            INITIAL | {"status": 503, "end": "CQ", "waited": -1},
            "initial request 0 of session s1: its client went away; not asked",
        ),
        (
            INITIAL | {"status": 400, "end": "CH", "answered": -1},
            "initial request 0 of session s1: its client went away; it may be done",
        ),
        (
            INITIAL | {"code": "2001", "end": "CD"},
            "initial request 0 of session s1: accepted (2001); "
            "its client went away before the answer",
        ),
        (
            CREDIT | {"code": "2001", "waited": 4000},
            "credit of 1000000 under c1: accepted (2001); waited 4000 ms",
        ),
        (
            CREDIT | {"code": "2001", "reference": "a\x1b[2Jb\nc"},
            "credit of 1000000 under a\\x1b[2Jb\\nc: accepted (2001)",
        ),
    ],
)
def test_each_kind_of_answer_is_a_sentence(members: dict[str, Any], text: str) -> None:
    assert told(**members) == text
