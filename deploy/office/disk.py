"""What is on the disk for good: a file that is written whole, in the place of the one before.

Each word that writes a file calls `write`; stopped anywhere, by a loss of power as well, the file is
the one before or the new one. It costs two syncs."""
from __future__ import annotations

import os
import pathlib
import tempfile

from office.faults import Refused


def write(path: pathlib.Path, text: str | bytes, rights: int = 0o644) -> None:
    """Writes a file with these rights over the one before; refused, that one stays."""
    content = text.encode() if isinstance(text, str) else text
    name = ""
    try:
        with tempfile.NamedTemporaryFile(
            dir=path.parent, prefix=f".{path.name}-", delete=False
        ) as made:
            name = made.name
            os.fchmod(made.fileno(), rights)
            made.write(content)
            made.flush()
            os.fsync(made.fileno())
        os.replace(name, path)
        sync(path.parent)
    except OSError as fault:
        raise Refused(f"{path}: {fault.strerror}") from fault
    finally:
        if name:
            pathlib.Path(name).unlink(missing_ok=True)


def sync(path: pathlib.Path) -> None:
    """Sees that what a path has is on the disk."""
    opened = os.open(path, os.O_RDONLY)
    try:
        os.fsync(opened)
    finally:
        os.close(opened)
