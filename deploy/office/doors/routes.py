"""Which role may ask what: the one table of the program's routes and of the doors' own.

`rules` makes HAProxy's patterns of it, `words/check.py` prints it. A route that isn't here is 404
or 405 at every door."""
from __future__ import annotations

import dataclasses

from office.settings import Door

ACCOUNT = "/accounts/[0-9]{1,15}"
# What the program takes: a head of 8,192 bytes, of which HAProxy hands on some, and a body.
HEAD, BODY = 8000, 65536


# The service `office agent`, behind the operators' doors; a shop's has one target of it.
AGENT = "/office/agent"
REDEEM = AGENT + "/redeem"
# What may stand behind a target of the agent's, which judges it.
MORE = "([?][-a-zA-Z0-9=&,:]{1,120})?"
JSON = "application/json"


@dataclasses.dataclass(frozen=True)
class Route:
    """A method and a target, as a regular expression, with the roles that may ask it."""

    method: str
    target: str
    roles: tuple[str, ...]
    # What the body of a POST is called; no page of another site can send one of these unasked.
    kind: str = JSON
    # Whether a POST changes nothing, so that an operator who only reads may ask it.
    only_reads: bool = False

    def is_of_page(self) -> bool:
        """Whether it is for a browser."""
        return self.target.startswith("/office") and not self.target.startswith(AGENT)


OFFICE = ("operator", "script")
# Who may come with a browser: a shop at a door that says its hosts.
PEOPLE = ("shop", "operator")
# Who asks, and what that one may do.
ASKER = "/office/me"
ROUTES = (
    # A shop's are enquiries (`rules.enquiries`).
    Route("POST", "/ccr", ("gateway", "shop", *OFFICE)),
    Route("GET", ACCOUNT, ("shop", *OFFICE)),
    Route("PUT", ACCOUNT, OFFICE),
    Route("GET", ACCOUNT + "/statement/[0-9]{6}", ("shop", *OFFICE)),
    Route("POST", ACCOUNT + "/credits", OFFICE),
    Route("POST", ACCOUNT + "/allowances", OFFICE),
    Route("POST", "/vouchers/[0-9]{12}/redeem", ("shop", *OFFICE)),
    Route("POST", "/sweep", ("script",)),
    # These HAProxy answers itself, but for a shard's health.
    Route("GET", "/office", PEOPLE),
    Route("GET", r"/office/console\.(js|css)", PEOPLE),
    Route("GET", ASKER, PEOPLE),
    Route("GET", "/health", ("gateway", "operator", "watcher")),
    Route("GET", "/health/[0-9]{2}", ("watcher",)),
    Route("GET", "/metrics", ("watcher",)),
    # These the agent answers.
    Route("GET", AGENT + "/account/[0-9]{1,15}" + MORE, ("operator",)),
    Route("POST", AGENT + "/bar/[0-9]{1,15}", ("operator",)),
    Route("POST", AGENT + "/unbar/[0-9]{1,15}", ("operator",)),
    Route("POST", REDEEM, PEOPLE),
    Route("GET", AGENT + "/books", ("operator",)),
    Route("POST", AGENT + "/trial" + MORE, ("operator",), "application/toml", True),
    Route("POST", AGENT + "/vouchers/check", ("operator",), "text/csv", True),
    Route("GET", AGENT + "/sums" + MORE, ("operator",)),
    Route("GET", AGENT + "/shards", ("operator",)),
)


def of(role: str) -> list[Route]:
    """What a role may ask."""
    return [route for route in ROUTES if role in route.roles]


def at(door: Door) -> list[Route]:
    """What may be asked at a door: of its role, and of the page where that is."""
    return [one for one in of(door.role) if door.is_for_people() or not one.is_of_page()]


def targets() -> str:
    """A pattern of a target that some method has."""
    return "^[^ ]+ (" + "|".join(dict.fromkeys(route.target for route in ROUTES)) + ")$"


def pattern(routes: list[Route]) -> str:
    """A pattern of these methods and targets, with a space between them."""
    return "^(" + "|".join(f"{route.method} {route.target}" for route in routes) + ")$"
