"""From a request to its answer: who may ask, which route, what became of it, and a line of the log.

The doors say who asks, and have refused who may not; what doesn't come from them is refused here too.
A line is JSON on standard output, one for each answer, and one before for what changes something, so
that a kill in between leaves its caller's name as well."""
from __future__ import annotations

import json
import sys
import threading
import time
import traceback

from office.agent import routes
from office.agent.asked import Asked, Body, Office
from office.faults import Refused, Unanswered, Unread

LOCK = threading.Lock()
# What a shop is told of a fault: the sentences of the log are an operator's.
SHOPS = {
    409: "the office can't redeem it now; its log says why",
    500: "a mistake of the agent's",
    504: "no answer came; it may be done, and the same again is safe",
}
# What is told of an answer that the log has too.
TOLD = ("account", "shard", "changed", "waited", "Result-Code", "Refusal", "Bucket", "fault")


def answer(office: Office, asked: Asked) -> tuple[int, str]:
    """The status and the JSON of the answer."""
    begun = time.monotonic()
    found = routes.found(asked)
    changes = not isinstance(found, int) and found[0].changes
    if changes and asked.who and is_let(asked, found):
        write(asked, {"begins": True})
    status, body = made(office, asked, found)
    body.setdefault("as_of", round(time.time(), 3))
    told = {name: body[name] for name in TOLD if name in body}
    seconds = round(time.monotonic() - begun, 3)
    write(asked, {"status": status, "seconds": seconds, "changes": changes} | told)
    return status, json.dumps(shown(asked, status, body), separators=(",", ":"))


def is_let(asked: Asked, found: tuple[routes.Route, tuple[str, ...]] | int) -> bool:
    """Whether the one who asks may ask for a route that was found."""
    return not isinstance(found, int) and asked.is_let(found[0].target, found[0].changes)


def shown(asked: Asked, status: int, body: Body) -> Body:
    """What the one who asks is told: a shop neither the number of a shard nor a path."""
    if not asked.is_shop:
        return body
    told = {name: value for name, value in body.items() if name != "shard"}
    return told | ({"fault": SHOPS[status]} if status in SHOPS else {})


def made(
    office: Office, asked: Asked, found: tuple[routes.Route, tuple[str, ...]] | int
) -> tuple[int, Body]:
    """The status and the body of an answer; a fault is a sentence."""
    if not asked.who:
        return 403, {"fault": "the doors don't say who asks"}
    if isinstance(found, int):
        return found, {"fault": f"there is no {asked.method} {asked.path}"}
    route, parts = found
    if not is_let(asked, found):
        return 403, {"fault": f"{asked.who} may only {asked.may}"}
    try:
        return 200, route.answer(office, asked, *parts)
    except Unread as fault:
        return 400, {"fault": str(fault)}
    except Unanswered as fault:
        return 504, {"fault": f"{fault}; it may be done, and the same again is safe"}
    except Refused as fault:
        return 409, {"fault": str(fault)}
    except Exception as fault:
        traceback.print_exc()
        return 500, {"fault": f"a mistake of the agent's: {type(fault).__name__}"}


def write(asked: Asked, told: Body) -> None:
    """A line of the log."""
    line = {
        "moment": round(time.time(), 3),
        "who": asked.who,
        "what": f"{asked.method} {asked.target}",
        "id": asked.id,
    }
    with LOCK:
        sys.stdout.write(json.dumps(line | told) + "\n")
        sys.stdout.flush()
