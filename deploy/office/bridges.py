"""The bridges from Diameter to the office (deploy/diameter): their table of the office's file, and
their own ports.

The words `diameter` and `credited` use it. A call a bridge."""
from __future__ import annotations

import dataclasses
import json

from office import schema

# The unit of a bridge, whose lines have the members of the doors'.
UNIT = "ocs-diameter"
# A bridge answers at once; one that doesn't is on its way up or down.
SECONDS = 2


@dataclasses.dataclass(frozen=True, kw_only=True)
class Diameter:
    """`[diameter]`: where the bridges are, and what they read."""

    # The addresses of their keys `watch`.
    bridges: tuple[str, ...] = schema.texts(r"[0-9.]{7,15}:[0-9]{1,5}", "an address:port")
    # The kind of each rating group, which their keys `groups` name.
    groups: str = schema.text("/etc/ocs/diameter-groups.json", r"/[!-~]{1,200}", "a path")

    def watched(self) -> tuple[str, ...]:
        """The bridges; of a file that names none, the one of this machine."""
        return self.bridges or ("127.0.0.1:9868",)


def credited(bridge: str, account: str) -> int | None:
    """Tells a bridge that an account has got something: the sessions whose gateways it tells, or
    none where it doesn't answer. HTTP is a third of what a word takes to begin, and every word reads
    this module, so it is imported here."""
    import http.client

    address, _, port = bridge.partition(":")
    connection = http.client.HTTPConnection(address, int(port), timeout=SECONDS)
    body = json.dumps({"Account": account})
    try:
        connection.request("POST", "/credited", body, {"Content-Type": "application/json"})
        return int(json.loads(connection.getresponse().read())["Sessions"])
    except (OSError, http.client.HTTPException, ValueError, KeyError):
        return None
    finally:
        connection.close()
