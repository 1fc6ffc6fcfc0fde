"""The instructions that a program takes, counted by valgrind's callgrind: other work on the machine
doesn't change them. What the kernel does for the program isn't among them."""

from __future__ import annotations

import contextlib
import http.client
import pathlib
import re
import subprocess
import tempfile
from collections.abc import Iterator, Sequence

import offices
import ports

SECONDS = 1800
COLLECTED = re.compile(r"Collected : (\d+)")


@contextlib.contextmanager
def words_of(words: Sequence[object]) -> Iterator[list[str]]:
    """The words that run a program and count its instructions, also where it becomes another."""
    with tempfile.TemporaryDirectory(prefix="callgrind-") as folder:
        file = f"--callgrind-out-file={folder}/%p"
        tool = ["valgrind", "--tool=callgrind", "--trace-children=yes", file]
        yield [*tool, *map(str, words)]


def collected(said: str, words: Sequence[object]) -> int:
    """The instructions that the tool says of a run."""
    found = COLLECTED.findall(said)
    if not found:
        raise OSError(f"{' '.join(map(str, words))}: {said[-600:]}")
    return int(found[-1])


def of_run(words: Sequence[object], place: pathlib.Path, text: str = "") -> tuple[int, str]:
    """The instructions of a run that ends with status 0, and what it prints."""
    with words_of(words) as asked:
        ran = subprocess.run(
            asked, cwd=place, input=text, capture_output=True, text=True, timeout=SECONDS
        )
    if ran.returncode:
        raise OSError(f"{' '.join(map(str, words))}: {ran.returncode} {ran.stderr[-600:]}")
    return collected(ran.stderr, words), ran.stdout


def of_server(database: pathlib.Path, at: int, requests: Sequence[tuple[str, str, str]]) -> int:
    """The instructions of a server of a database at one moment, which answers these requests over one
    connection, each by 2001, and ends with it."""
    port = ports.free_ports()
    words = offices.serve_words(database, port, connections=1, at=at)
    with words_of(words) as asked, tempfile.TemporaryFile("w+") as said:
        with subprocess.Popen(asked, stdout=subprocess.PIPE, stderr=said, text=True) as server:
            assert server.stdout
            try:
                if server.stdout.readline():
                    ask(port, requests)
                status = server.wait(SECONDS)
            finally:
                offices.stop(server, "kill")
        said.seek(0)
        told = said.read()
    if status:
        raise OSError(f"{' '.join(words)}: {status} {told[-600:]}")
    return collected(told, words)


def ask(port: int, requests: Sequence[tuple[str, str, str]]) -> None:
    """Asks requests over one connection, each a method, a path and a body."""
    opened = http.client.HTTPConnection("127.0.0.1", port, timeout=SECONDS)
    with contextlib.closing(opened):
        opened.connect()
        for method, path, body in requests:
            opened.request(method, path, body, {"Content-Type": "application/json"})
            answer = opened.getresponse().read()
            if b'"Result-Code":2001,"Session-Id"' not in answer and b'"Buckets"' not in answer:
                raise OSError(f"{method} {path} {body}: {answer[:300]!r}")
