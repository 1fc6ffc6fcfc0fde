"""The command line: help of each word, exit statuses."""
from __future__ import annotations

import pathlib
import signal
import subprocess

import pytest

from office import command

OFFICE = pathlib.Path(__file__).resolve().parents[2] / "bin/office"
WORDS = [word.__name__.rpartition(".")[2].replace("_", "-") for word in command.found()]


def ran(*words: object) -> subprocess.CompletedProcess[str]:
    """The command with these words."""
    return subprocess.run([OFFICE, *map(str, words)], capture_output=True, text=True, check=False)


@pytest.mark.parametrize("word", WORDS)
def test_each_word_has_help(word: str) -> None:
    told = ran(word, "--help")
    assert told.returncode == 0
    assert f"office {word}" in told.stdout
    assert "exit status" in told.stdout


def test_each_word_is_told_in_whole_sentences() -> None:
    told = " ".join(ran("--help").stdout.split())
    for word in command.found():
        first = (word.__doc__ or "").strip().partition("\n\n")[0]
        assert " ".join(first.split()).rstrip(".") in told, word.__name__


def test_a_stop_before_it_has_begun_says_nothing(tmp_path: pathlib.Path) -> None:
    # In the place of a module that it imports.
    (tmp_path / "argparse.py").write_text(
        "import os, signal\nos.kill(os.getpid(), signal.SIGINT)\n"
    )
    more = {"PYTHONPATH": str(tmp_path)}
    told = subprocess.run([str(OFFICE), "status"], capture_output=True, env=more, check=False)
    assert (told.returncode, told.stdout, told.stderr) == (-signal.SIGINT, b"", b"")


def test_wrong_words_are_status_2(tmp_path: pathlib.Path) -> None:
    assert ran().returncode == 2
    assert ran("nothing").returncode == 2
    told = ran("--file", tmp_path / "nothing.toml", "sweep")
    assert (told.returncode, told.stdout) == (2, "")
    assert told.stderr.startswith("office: ")


def test_an_office_that_is_away_is_status_1(tmp_path: pathlib.Path) -> None:
    path = tmp_path / "office.toml"
    path.write_text(f'[haproxy]\nsockets = "{tmp_path}"\n')
    told = ran("--file", path, "sweep", "--shard", "01")
    assert told.returncode == 1
    assert "POST /sweep" in told.stderr


def test_a_dry_run_asks_nobody(tmp_path: pathlib.Path) -> None:
    path = tmp_path / "office.toml"
    path.write_text(f'[office]\nshards = 2\n[haproxy]\nsockets = "{tmp_path}"\n')
    told = ran("--file", path, "sweep", "--dry-run")
    assert (told.returncode, told.stdout) == (0, "01 would be swept\n02 would be swept\n")
