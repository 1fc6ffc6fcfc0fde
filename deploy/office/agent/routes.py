"""What the agent answers: the one table of its routes. `doors/routes.py` has who may ask each."""
from __future__ import annotations

import dataclasses
import re
from collections.abc import Callable

from office.agent import accounts, bars, codes, prices, redeem, state, sums
from office.agent.asked import Asked, Body
from office.doors.routes import AGENT

NUMBER = "/([0-9]{1,15})"


@dataclasses.dataclass(frozen=True)
class Route:
    """A method and a path, with the function that answers; its further arguments are the path's."""

    method: str
    path: str
    answer: Callable[..., Body]
    changes: bool = False

    @property
    def target(self) -> str:
        """The whole target, as a pattern."""
        return AGENT + self.path


ROUTES = (
    Route("GET", "/account" + NUMBER, accounts.account),
    Route("POST", "/bar" + NUMBER, bars.bar, True),
    Route("POST", "/unbar" + NUMBER, bars.unbar, True),
    Route("POST", "/redeem", redeem.redeem, True),
    Route("GET", "/books", prices.shelf),
    Route("POST", "/trial", prices.trial),
    Route("POST", "/vouchers/check", codes.check),
    Route("GET", "/sums", sums.sums),
    Route("GET", "/shards", state.state),
)


def found(asked: Asked) -> tuple[Route, tuple[str, ...]] | int:
    """The route of a request and the parts of its path; 404 or 405 where there is none."""
    status = 404
    for route in ROUTES:
        fits = re.fullmatch(route.target, asked.path)
        if fits and route.method == asked.method:
            return route, fits.groups()
        status = 405 if fits else status
    return status
