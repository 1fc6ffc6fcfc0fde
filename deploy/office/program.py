"""The program's own words, run as the user who owns the databases.

Words that need a word of `ocs` over a database that nobody serves call `run` or `done`."""
from __future__ import annotations

import contextlib
import os
import pathlib
import pwd
import shutil
import subprocess
import tempfile
from collections.abc import Iterator
from typing import TypedDict

from office.faults import Refused
from office.settings import Settings


class AsUser(TypedDict, total=False):
    """How `subprocess` starts a process of another user."""

    user: str
    group: int
    extra_groups: list[str]


def run(settings: Settings, *words: object) -> subprocess.CompletedProcess[str]:
    """What the program prints for these words, whatever its status."""
    asked = [settings.office.program, *map(str, words)]
    owner = as_owner(settings)
    try:
        return subprocess.run(asked, capture_output=True, text=True, check=False, **owner)
    except OSError as fault:
        raise Refused(f"{settings.office.program}: {fault.strerror}") from fault


def done(settings: Settings, *words: object) -> str:
    """What the program prints for these words; refused where its status isn't 0."""
    ended = run(settings, *words)
    if ended.returncode:
        told = (ended.stdout + ended.stderr).strip()
        raise Refused(f"ocs {' '.join(map(str, words))}: {told}")
    return ended.stdout


def as_owner(settings: Settings) -> AsUser:
    """As root a process runs as the databases' owner, else as whom the command runs as."""
    owner = settings.office.owner
    if os.geteuid() or not owner:
        return {}
    try:
        group = pwd.getpwnam(owner).pw_gid
    except KeyError as fault:
        raise Refused(f"there is no user {owner} on this machine (office: owner)") from fault
    return {"user": owner, "group": group, "extra_groups": []}


def give(settings: Settings, path: pathlib.Path) -> None:
    """Gives a file or a folder to the databases' owner, where the command may."""
    if owner := as_owner(settings):
        shutil.chown(path, owner["user"], owner["group"])


@contextlib.contextmanager
def readable(settings: Settings, path: pathlib.Path) -> Iterator[pathlib.Path]:
    """A copy of a file that the databases' owner may read; it goes in the end."""
    try:
        content = path.read_bytes()
    except OSError as fault:
        raise Refused(f"{path}: {fault.strerror}") from fault
    with handed(settings, path.name, content) as made:
        yield made


@contextlib.contextmanager
def handed(settings: Settings, name: str, content: bytes) -> Iterator[pathlib.Path]:
    """A file that the databases' owner alone may read: codes of vouchers are money. It goes in the
    end."""
    with tempfile.TemporaryDirectory() as folder:
        made = pathlib.Path(folder) / name
        made.write_bytes(content)
        made.chmod(0o600)
        give(settings, made)
        give(settings, made.parent)
        yield made
