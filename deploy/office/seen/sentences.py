"""A line of the doors' log as a sentence.

`trace` calls `sentence`. The texts of a client are shown with what would move a terminal's cursor
written out."""
from __future__ import annotations

import datetime
import re

from office.doors.routes import AGENT
from office.log_line import NONE, Answered

# CC-Request-Type (RFC 8506, 8.3).
TYPES = {"1": "initial request", "2": "update", "3": "termination", "4": "event"}
# Result-Codes (RFC 8506, 9; RFC 6733, 7.1).
CODES = {
    "2001": "accepted",
    "4010": "denied, the account is barred",
    "4012": "denied, no money for it",
    "5002": "refused, no such session is open",
    "5004": "refused, a member doesn't fit",
    "5005": "refused, a member is missing",
    "5030": "refused, no such account",
    "5031": "refused, the rating group has no tariff",
}
# What 5012 is, by the answer's status (docs/RULES.md, codes).
UNABLE = {
    200: "refused, a number would pass its limit",
    400: "refused, it is no JSON object",
    503: "not done, the shard's disk, memory or clock failed",
}
REFUSALS = {
    "O1": "the account is there already",
    "O2": "no such account",
    "O3": "no such voucher",
    "O4": "the voucher is spent",
    "O5": "the reference was used for something else",
    "O6": "it would be over before it begins",
    "O7": "the rating group isn't in the tariff book",
}
# Why a door turns a request away (office/doors/rules.py).
REASONS = {
    "role": "its certificate has another role",
    "name": "the office's file doesn't name it",
    "unknown": "its name and password aren't an operator's",
    "guesses": "it guessed passwords too often",
    "codes": "it guessed codes of vouchers too often",
    "browser": "a page in a browser asked",
    "origin": "a page of another site asked",
    "site": "a page of another site asked",
    "host": "it asked for another host",
    "shard": "it named a shard",
    "target": "there is no such target",
    "method": "the target has no such method",
    "route": "its role may not ask that",
    "read": "it may only read",
    "refund": "it may not refund",
    "enquiry": "it may only ask for prices",
    "rate": "it asked too often",
    "at-once": "it asked too much at once",
    "coding": "its body had no length",
    "length": "its body had no length",
    "body": "its body is too long",
    "head": "its head is too long",
    "type": "its body isn't called JSON",
    "account": "its account can't be told",
    "moving": "its account was moving for too long",
    "archive-held": "its shard was carried for too long",
    "archive-away": "it may be a repeat, and the archive's service didn't say",
    # Of the bridge from Diameter (deploy/diameter).
    "in-flight": "too many requests were under way",
    "office-busy": "the office turned it away, and nothing was done",
    "office-open": "the office gave no answer, and it may be done",
    "avps": "an AVP doesn't fit",
}
COMMANDS = {"credits": "credit", "allowances": "allowance", "redeem": "redemption"}
# Of the agent.
BARS = re.compile(f"{AGENT}/(bar|unbar)/")
READ = {"GET": "reading", "PUT": "opening"}
# A wait that is worth a word, in milliseconds.
WAIT = 100


def sentence(line: Answered) -> str:
    """When, who, at which door, what was asked, what became of it, and the request's id."""
    moment = datetime.datetime.fromtimestamp(line.moment, datetime.UTC)
    told = f"{moment:%Y-%m-%d %H:%M:%S}.{moment.microsecond // 1000:03} {line.who} at {line.door}"
    waited = f"; waited {line.waited} ms" if line.waited > WAIT else ""
    return plain(f"{told}: {asked(line)}: {answered(line)}{waited} [{line.id[:8]}]")


def asked(line: Answered) -> str:
    """What was asked."""
    if line.what == "RAR":
        return f"told to ask again for session {line.session}"
    if line.session != NONE:
        return f"{TYPES.get(line.type, 'request')} {line.number} of session {line.session}"
    method, _, target = line.what.partition(" ")
    bars = BARS.match(target)
    if bars:
        return bars[1]
    last = target.rpartition("/")[2]
    if last in COMMANDS:
        amount = "" if line.amount == NONE else f" of {line.amount}"
        reference = "" if line.reference == NONE else f" under {line.reference}"
        return f"{COMMANDS[last]}{amount}{reference}"
    return f"{READ.get(method, method)} {target}"


def answered(line: Answered) -> str:
    """What became of it."""
    if line.why != NONE:
        return f"turned away ({line.status}), {REASONS.get(line.why, line.why)}"
    if line.refusal != NONE:
        return f"refused, {REFUSALS.get(line.refusal, 'by the program')} ({line.refusal})"
    if line.code == NONE and line.status != 200:
        return unanswered(line)
    # A service's own code says more than that of the whole.
    code = line.service if line.service not in (NONE, "2001") else line.code
    if code == NONE:
        return "answered"
    told = UNABLE.get(line.status, "not done") if code == "5012" else CODES.get(code, "answered")
    granted = "" if line.granted == NONE else f", {line.granted} granted"
    return f"{told} ({code}){granted}{lost(line)}"


def unanswered(line: Answered) -> str:
    """What is known of a request that no shard answered."""
    if line.end.startswith("C"):
        was_asked = line.waited >= 0
        return "its client went away; " + ("it may be done" if was_asked else "not asked")
    if line.status in (502, 504):
        return f"no answer came ({line.status}); it may be done"
    return f"not done ({line.status})"


def lost(line: Answered) -> str:
    """Whether the client was there for the answer."""
    return "; its client went away before the answer" if line.end.startswith("C") else ""


def plain(text: str) -> str:
    """A text without what moves a terminal's cursor."""
    return "".join(each if each.isprintable() else repr(each)[1:-1] for each in text)
