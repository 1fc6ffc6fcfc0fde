"""What the scripts about many offices share: processes on the loopback address, and requests.

The program is what tools/program prints, or the file that the variable OCS names."""
from __future__ import annotations

import contextlib
import email.message
import functools
import http.client
import importlib.machinery
import importlib.util
import json
import os
import pathlib
import shutil
import socket
import subprocess
import sys
import tempfile
import time
import types
import typing
from collections.abc import Callable, Iterator, Sequence

TOP = pathlib.Path(__file__).resolve().parents[2]
DEPLOY = TOP / "deploy"
OFFICE = DEPLOY / "bin/office"
BOOK = TOP / "examples/book.toml"
SECONDS = 120


@functools.cache
def program() -> str:
    """The path of the program."""
    if os.environ.get("OCS"):
        return str(pathlib.Path(os.environ["OCS"]).resolve())
    told = subprocess.run([TOP / "tools/program"], stdout=subprocess.PIPE, check=True, text=True)
    return str(TOP / told.stdout.strip())


def tool(name: str) -> types.ModuleType:
    """Another tool as a module."""
    loader = importlib.machinery.SourceFileLoader(name, str(TOP / "tools/lib" / name))
    spec = importlib.util.spec_from_loader(name, loader)
    assert spec is not None
    made = importlib.util.module_from_spec(spec)
    loader.exec_module(made)
    return made


def need(*commands: str) -> None:
    """Ends with status 2 if one of these commands isn't on the machine."""
    missing = [command for command in commands if not shutil.which(command)]
    if missing:
        print(f"{pathlib.Path(sys.argv[0]).name}: not found: {' '.join(missing)}", file=sys.stderr)
        sys.exit(2)


def listens(port: int) -> bool:
    """Whether somebody listens on this port of 127.0.0.1; no connection is made."""
    wanted = f"0100007F:{port:04X}"
    lines = pathlib.Path("/proc/net/tcp").read_text().split("\n")[1:]
    rows = (line.split() for line in lines if line)
    return any(row[1] == wanted and row[3] == "0A" for row in rows)


def wait_until(holds: Callable[[], object], what: str, seconds: float = SECONDS) -> None:
    """Waits until this holds."""
    end = time.monotonic() + seconds
    while not holds():
        if time.monotonic() > end:
            raise TimeoutError(what)
        time.sleep(0.02)


def stop(process: subprocess.Popen[typing.Any], by: str = "terminate") -> None:
    """Ends a process of ours and waits for its end."""
    if process.poll() is None:
        getattr(process, by)()
    with contextlib.suppress(subprocess.TimeoutExpired):
        process.wait(SECONDS)
        return
    process.kill()
    process.wait(SECONDS)


@contextlib.contextmanager
def started(
    words: Sequence[str | os.PathLike[str]], port: int, **more: typing.Any
) -> Iterator[subprocess.Popen[typing.Any]]:
    """A process with these words while its port is listened on."""
    process = subprocess.Popen(words, stdin=subprocess.DEVNULL, **more)
    try:
        wait_until(lambda: listens(port) or process.poll() is not None, f"port {port}")
        yield process
    finally:
        stop(process)


FILE = """
[office]
shards = {shards}
more = {more}
first-port = {first}
databases = "{place}"
moved = "{moved}"
clearing = "{place}/clearing"
page = "{page}"
owner = ""
[haproxy]
user = ""
sockets = "{place}"
[[door]]
name = "operators"
role = "operator"
at = "127.0.0.1:{port}"
hosts = ["127.0.0.1:{port}"]
[[door]]
name = "scripts"
role = "script"
at = "{place}/office.sock"
"""


def office_file(
    place: str | os.PathLike[str],
    shards: int,
    first: int,
    port: int,
    more: int = 0,
    moved: str | os.PathLike[str] | None = None,
) -> pathlib.Path:
    """The file of an office in a folder: operators come by a port, scripts by a socket."""
    told = {"place": place, "shards": shards, "first": first, "port": port, "more": more}
    told |= {"moved": moved or f"{place}/moved", "page": DEPLOY / "console/console.html"}
    path = pathlib.Path(place) / "office.toml"
    path.write_text(FILE.format(**told))
    return path


@contextlib.contextmanager
def balancer(
    shards: int,
    first: int,
    port: int,
    more: int = 0,
    moved: str | os.PathLike[str] | None = None,
) -> Iterator[pathlib.Path]:
    """HAProxy before these shards, on a port for operators; gives the path of the scripts' socket
    while it is up."""
    with tempfile.TemporaryDirectory() as place:
        file = office_file(place, shards, first, port, more, moved)
        path = pathlib.Path(place) / "haproxy.cfg"
        with path.open("w") as out:
            subprocess.run([OFFICE, "--file", file, "doors"], stdout=out, check=True)
        quiet = {"stdout": subprocess.DEVNULL, "stderr": subprocess.DEVNULL}
        with started(["haproxy", "-db", "-f", path], port, **quiet):
            yield pathlib.Path(place) / "office.sock"


def serve_words(
    database: str | os.PathLike[str],
    port: int,
    connections: int = 1_000_000,
    at: int | None = None,
) -> list[str]:
    """The words of the program that serve a database."""
    words = [program(), "serve", str(database), "--port", str(port)]
    words += ["--connections", str(connections)]
    return words if at is None else [*words, "--at", str(at)]


def ran(*words: object, place: pathlib.Path | str | None = None) -> str:
    """What the program prints for these words; raises where its status isn't 0."""
    asked = [program(), *map(str, words)]
    ended = subprocess.run(asked, cwd=place, capture_output=True, text=True, timeout=600)
    if ended.returncode:
        raise OSError(f"{' '.join(map(str, words))}: {ended.returncode} {ended.stderr}")
    return ended.stdout


class SocketConnection(http.client.HTTPConnection):
    """HTTP over a socket of the file system."""

    def __init__(self, path: pathlib.Path, seconds: float) -> None:
        super().__init__("office", timeout=seconds)
        self.path = path

    def connect(self) -> None:
        self.sock = socket.socket(socket.AF_UNIX)
        self.sock.settimeout(self.timeout)
        self.sock.connect(str(self.path))


class Client:
    """A keep-alive connection to a port of 127.0.0.1 or to a socket's path, made anew when it
    ends."""

    def __init__(self, place: int | pathlib.Path, seconds: float = 60) -> None:
        if isinstance(place, pathlib.Path):
            self.opened: http.client.HTTPConnection = SocketConnection(place, seconds)
        else:
            self.opened = http.client.HTTPConnection("127.0.0.1", place, timeout=seconds)

    def ask(
        self, method: str, path: str, body: object = None, **fields: str
    ) -> tuple[int, email.message.Message, bytes]:
        """The status, the fields and the body of the answer."""
        if isinstance(body, (dict, list)):
            body = json.dumps(body, separators=(",", ":"))
        if body is None and method in ("POST", "PUT"):
            body = ""
        named = {name.replace("_", "-"): value for name, value in fields.items()}
        if method == "POST":
            named.setdefault("Content-Type", "application/json")
        try:
            self.opened.request(method, path, typing.cast(str | bytes | None, body), named)
            answer = self.opened.getresponse()
            return answer.status, answer.headers, answer.read()
        except BaseException:
            self.opened.close()
            raise

    def close(self) -> None:
        """Ends the connection."""
        self.opened.close()


class Counts:
    """Checks that passed and failed; each that fails is reported."""

    def __init__(self, name: str) -> None:
        self.name, self.passed, self.failed, self.skipped = name, 0, 0, 0

    def check(self, what: object, found: object, wanted: object = True) -> bool:
        """Counts whether what was found is what was wanted."""
        if found == wanted:
            self.passed += 1
            return True
        self.failed += 1
        said = repr(found) if wanted is True else f"{found!r}, wanted {wanted!r}"
        print(f"{self.name}: {what}: {said[:600]}", file=sys.stderr)
        return False

    def skip(self, what: str) -> None:
        """Prints what isn't tried since a tool is missing; it counts neither as passed nor as
        failed."""
        self.skipped += 1
        print(f"{self.name}: skipped: {what}")

    def end(self) -> typing.NoReturn:
        """Prints the counts as the last line and ends with status 1 if one failed."""
        skipped = f", {self.skipped} skipped" if self.skipped else ""
        print(f"{self.name}: {self.passed} passed, {self.failed} failed{skipped}")
        sys.exit(1 if self.failed or not self.passed else 0)


def subscription(account: str) -> dict[str, int | str]:
    """The member that names an account in a request."""
    return {"Subscription-Id-Type": 0, "Subscription-Id-Data": account}
