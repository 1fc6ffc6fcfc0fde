"""Databases and files of vouchers: nobody but their owner reads what a word makes of them."""
from __future__ import annotations

import pathlib
import sqlite3

from support.world import ran

from office import copies, program, settings


def test_a_whole_copy_is_its_owners_alone(tmp_path: pathlib.Path) -> None:
    with sqlite3.connect(tmp_path / "a.db") as store:
        store.execute("CREATE TABLE codes (code)")
    copies.make_whole(tmp_path / "a.db", tmp_path / "b.db")
    assert (tmp_path / "b.db").stat().st_mode & 0o777 == 0o600


def test_what_the_program_is_handed_nobody_else_reads(tmp_path: pathlib.Path) -> None:
    file = tmp_path / "office.toml"
    file.write_text('[office]\nowner = "nobody"\nprogram = "/usr/bin/cat"\n')
    told = settings.read(file)
    with program.handed(told, "vouchers.csv", b"123456789012") as made:
        assert program.done(told, made) == "123456789012"
        stranger = ran("setpriv", "--reuid", "daemon", "--clear-groups", "cat", made)
        assert (stranger.returncode, stranger.stdout) == (1, "")
    assert not made.parent.exists()
