"""`[agent]` of the office's file: where `office agent` listens, and how old what it reads may be."""
from __future__ import annotations

import dataclasses

from office import schema
from office.keeping import PATH

SOCKET = (r"/[!#-&(-\[\]-~]{1,90}", "a socket's path without spaces, quotes and backslashes")


@dataclasses.dataclass(frozen=True, kw_only=True)
class Agent:
    """A socket, an age, a file."""

    socket: str = schema.text("/run/ocs-agent/socket", *SOCKET)
    # Seconds: a copy of a shard that is older is made anew before it is read.
    fresh: int = schema.whole(60, 1, 3600)
    # The references under which it redeemed vouchers, with their answers.
    redeemed: str = schema.text("/var/lib/ocs/agent.db", *PATH)
