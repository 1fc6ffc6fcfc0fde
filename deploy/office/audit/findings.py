"""What an audit says of a row."""
from __future__ import annotations

import dataclasses


@dataclasses.dataclass(frozen=True)
class Finding:
    """A row, or a sum of rows, that the program doesn't leave so."""

    shard: str  # its number, or those of several
    table: str
    key: str
    what: str

    def __str__(self) -> str:
        return f"{self.shard} {self.table} {self.key}: {self.what}"
