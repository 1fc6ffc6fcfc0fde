"""Until when the certificates of the doors hold.

`measures` calls `ends`. Each file costs a process of openssl, so what was read is kept until the file
changes."""
from __future__ import annotations

import dataclasses
import datetime
import pathlib
import re
import ssl
import subprocess
from collections.abc import Iterator

from office.settings import Settings

# A row of the authority's list: valid, its end (years from 2050 on have four digits), role and name.
ISSUED = re.compile(r"^V\t([0-9]{12}|[0-9]{14})Z\t.*/OU=([^/\n]+)/CN=([^/\n]+)$", re.MULTILINE)


@dataclasses.dataclass(frozen=True)
class End:
    """The end of a certificate or a list."""

    role: str  # office, authority, revoked, or a client's
    name: str
    moment: float  # since 1970


class Ends:
    """The ends, by files that were read."""

    def __init__(self) -> None:
        self.known: dict[pathlib.Path, tuple[int, float | None]] = {}

    def of(self, settings: Settings) -> Iterator[End]:
        """The ends of an office whose doors have TLS; of another none."""
        if not any(door.tls for door in settings.doors):
            return
        tls = settings.tls
        files = (
            ("office", tls.certificate, ("x509", "-enddate")),
            ("authority", tls.clients, ("x509", "-enddate")),
            ("revoked", tls.revoked, ("crl", "-nextupdate")),
        )
        for role, path, words in files:
            moment = self.in_file(pathlib.Path(path), words)
            if moment is not None:
                yield End(role, pathlib.Path(path).name, moment)
        yield from issued(pathlib.Path(tls.authority) / "index")

    def in_file(self, path: pathlib.Path, words: tuple[str, str]) -> float | None:
        """The end that a file has; None where it can't be read."""
        try:
            changed = path.stat().st_mtime_ns
        except OSError:
            return None
        if path not in self.known or self.known[path][0] != changed:
            self.known[path] = (changed, read(path, *words))
        return self.known[path][1]


def read(path: pathlib.Path, kind: str, what: str) -> float | None:
    """What openssl says of a file; None where it says nothing."""
    asked = ["openssl", kind, "-noout", what, "-in", str(path)]
    try:
        ended = subprocess.run(asked, capture_output=True, text=True, check=False, timeout=10)
    except (OSError, subprocess.TimeoutExpired):
        return None
    found = re.search("=(.* GMT)", ended.stdout)
    return float(ssl.cert_time_to_seconds(found[1])) if found else None


def issued(path: pathlib.Path) -> Iterator[End]:
    """The last end of each role and name that the authority has signed and not taken back."""
    if not path.exists():
        return
    last: dict[tuple[str, str], float] = {}
    for end, role, name in ISSUED.findall(path.read_text(encoding="utf-8")):
        moment = ended(end)
        last[role, name] = max(moment, last.get((role, name), 0.0))
    yield from (End(role, name, moment) for (role, name), moment in last.items())


def ended(text: str) -> float:
    """A moment of the authority's list, since 1970."""
    form = "%y%m%d%H%M%S%z" if len(text) == 12 else "%Y%m%d%H%M%S%z"
    return datetime.datetime.strptime(f"{text}+0000", form).timestamp()
