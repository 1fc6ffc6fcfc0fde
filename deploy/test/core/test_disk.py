"""What is written to the disk: whole or not at all."""
from __future__ import annotations

import os
import pathlib
import sys

import pytest
from support.world import DEPLOY, ran

from office import disk
from office.faults import Refused

# Files of 20 kB each on a disk of 64 kB, until there is no room.
FULL = """
mount -t tmpfs -o size=64k tmpfs "$1" && cd "$1" && exec "$2" -c '
import pathlib, sys
from office import disk
from office.faults import Refused
path, count = pathlib.Path("file"), 0
disk.write(path, "before")
try:
    for count in range(9):
        disk.write(pathlib.Path(f"file-{count}"), b"a" * 20000)
    sys.exit("it fits")
except Refused as fault:
    assert "No space" in str(fault), fault
try:
    disk.write(path, b"b" * 20000)
    sys.exit("it fits")
except Refused:
    pass
found = sorted(each.name for each in pathlib.Path(".").iterdir())
assert found == ["file", *(f"file-{at}" for at in range(count))], found
print(path.read_text())
'
"""


def rights(path: pathlib.Path) -> int:
    """Who may read and write a file."""
    return path.stat().st_mode & 0o777


@pytest.mark.parametrize("umask", (0o022, 0o077))
def test_a_file_has_its_rights_and_takes_the_place_of_another(
    tmp_path: pathlib.Path, umask: int
) -> None:
    path, before = tmp_path / "file", os.umask(umask)
    try:
        disk.write(path, "one", 0o600)
        assert (path.read_text(), rights(path)) == ("one", 0o600)
        disk.write(path, b"other")
        assert (path.read_text(), rights(path)) == ("other", 0o644)
    finally:
        os.umask(before)
    assert list(tmp_path.iterdir()) == [path]
    with pytest.raises(Refused, match="nowhere"):
        disk.write(tmp_path / "nowhere/file", "text")


def test_a_full_disk_leaves_what_was_there(tmp_path: pathlib.Path) -> None:
    words = ["unshare", "--mount", "bash", "-ec", FULL, "bash", tmp_path, sys.executable]
    told = ran(*words, env=os.environ | {"PYTHONPATH": str(DEPLOY)})
    assert (told.returncode, told.stdout) == (0, "before\n"), told.stderr
