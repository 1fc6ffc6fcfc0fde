"""The command line: finds the words, reads the file, carries a word out.

Every module of `office/words` is a word: `price_list.py` is `office price-list`. Its docstring is
the word's help (the first paragraph is what `office --help` says of it), `add(parser)` adds its
arguments, `run(settings, arguments)` carries it out and returns the exit status."""
from __future__ import annotations

import argparse
import importlib
import pathlib
import pkgutil
import signal
import sys
from collections.abc import Sequence
from typing import Protocol, cast

from office import settings, words
from office.faults import Fault

STATUS = """\
The exit status is 0 if it was done, 1 if it was refused or failed (a line on standard error says
why), 2 if the words or the office's file can't be read."""


class Word(Protocol):
    """A module of `office/words`."""

    __doc__: str | None
    __name__: str

    def add(self, parser: argparse.ArgumentParser) -> None:
        """Adds the word's arguments."""

    def run(self, settings: settings.Settings, arguments: argparse.Namespace) -> int:
        """Carries the word out; the exit status."""


def main(arguments: list[str] | None = None) -> int:
    """Carries out a command line; the exit status."""
    words_of = sys.argv[1:] if arguments is None else arguments
    told = parser(found(words_of)).parse_args(words_of)
    for each in (signal.SIGINT, signal.SIGTERM, signal.SIGHUP):
        signal.signal(each, signal.default_int_handler)
    try:
        return int(told.run(settings.read(told.file), told))
    except Fault as fault:
        print(f"office: {fault}", file=sys.stderr)
        return fault.status
    except BrokenPipeError:
        # Who reads our output has gone; what is still to be written there has nowhere to go.
        sys.stderr.close()
        return 1
    except OSError as fault:
        print(f"office: {fault}", file=sys.stderr)
        return 1
    except KeyboardInterrupt:
        print("office: stopped; the same words again go on", file=sys.stderr)
        return 1


def found(arguments: Sequence[str] = ()) -> list[Word]:
    """The words by name: those that a command line names, or all of them where it names none."""
    names = sorted(each.name for each in pkgutil.iter_modules(words.__path__))
    named = [name for name in names if name.replace("_", "-") in arguments]
    return [
        cast(Word, importlib.import_module(f"{words.__name__}.{name}")) for name in named or names
    ]


def parser(each_word: list[Word]) -> argparse.ArgumentParser:
    """What reads a command line."""
    plain = argparse.RawDescriptionHelpFormatter
    made = argparse.ArgumentParser("office", epilog=STATUS, formatter_class=plain)
    made.add_argument(
        "--file",
        type=pathlib.Path,
        default=settings.FILE,
        metavar="FILE",
        help="the office's file (%(default)s); without that one its defaults hold",
    )
    below = made.add_subparsers(dest="word", required=True, metavar="WORD")
    for word in each_word:
        name = word.__name__.rpartition(".")[2].replace("_", "-")
        text = (word.__doc__ or "").strip()
        part = below.add_parser(
            name,
            help=" ".join(text.partition("\n\n")[0].split()).rstrip("."),
            description=text,
            epilog=STATUS,
            formatter_class=plain,
        )
        word.add(part)
        part.set_defaults(run=word.run)
    return made
