"""A database that is served on a spare port, for the words that fill or look at one before it is
reachable.

`restore` and `carry` call `served`. The process ends with the word, however that ends (setpriv's
parent-death signal); each request is a round trip to this machine."""
from __future__ import annotations

import contextlib
import http.client
import json
import pathlib
import subprocess
from collections.abc import Iterator

from office import program
from office.client import Body
from office.faults import Refused
from office.settings import Settings

CONNECTIONS = 1_000_000
SECONDS = 120


class Spare:
    """Requests to a database on the spare port, over a kept connection."""

    def __init__(self, port: int) -> None:
        self.connection = http.client.HTTPConnection("127.0.0.1", port, timeout=SECONDS)

    def ask(self, method: str, path: str, body: Body | None = None) -> Body:
        """The object that the program answers; refused where it answers none."""
        text = None if method == "GET" else json.dumps(body, separators=(",", ":")) if body else ""
        try:
            self.connection.request(method, path, text)
            answer = self.connection.getresponse()
            told = answer.read().decode()
        except (OSError, http.client.HTTPException) as fault:
            raise Refused(f"{method} {path} on the spare port: {fault}") from fault
        if answer.status not in (200, 400):
            raise Refused(f"{method} {path} on the spare port: {answer.status} {told.strip()}")
        return dict(json.loads(told))


@contextlib.contextmanager
def served(
    settings: Settings, database: pathlib.Path, *more: object, port: int = 0
) -> Iterator[Spare]:
    """A database that nobody else serves, on the spare port (or another one) meanwhile; `more` are
    options of `ocs serve`."""
    port = port or settings.keeping.spare_port
    words = ["setpriv", "--pdeathsig", "KILL", settings.office.program, "serve", str(database)]
    words += ["--port", str(port), "--connections", str(CONNECTIONS), *map(str, more)]
    pipe, owner = subprocess.PIPE, program.as_owner(settings)
    with subprocess.Popen(words, stdout=pipe, stderr=pipe, text=True, **owner) as process:
        assert process.stdout and process.stderr
        try:
            if not process.stdout.readline().startswith("listening"):
                raise Refused(f"{database} isn't served: {process.stderr.read().strip()}")
            yield Spare(port)
        finally:
            process.kill()
