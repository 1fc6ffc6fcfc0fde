"""Transcripts of tests/scenarios: what was typed, what was given to it and what it printed, from
top to bottom.

A line that begins with `$ ` is a step as it is typed. The lines below it say what is expected:

    $ ocs WORDS      the program is run with these words
    $ http DB WORDS  it serves a connection of DB, with these words of `serve`; so do `cut`,
                     `lines` and `taken`
    > TEXT           what it is given: the bytes that are sent on a connection, the table of `lines`,
                     the standard input of `once`, or the file that is another command's third
                     word; it lies where the steps run, from the beginning on
    < TEXT           what comes back on a connection
    ! TEXT           a line of its standard error; `! ...` is anything
    ? N              its exit status, where that isn't 0
    # TEXT           a comment; `# rule: TAG, TAG` has the tags of the rules that are shown
    TEXT             each other line is one of its standard output

`$ database NAME` is no step: `db` is a copy of that file of tests/databases from the beginning on.

What is no text, has very long lines or very many, is in a file beside the transcript, as a book is.
`< FILE` is what the step is given, `> FILE` what it prints, `2> FILE` what it prints on standard error.
`> /dev/full` takes nothing.

A line of a connection ends with CR and LF; if its last character is a single backslash, with
nothing. Two backslashes are one, `\\n` is LF, and `\\xNN` is the byte of that number. Requests and
answers may alternate, for who reads them: all is sent first."""

import dataclasses
import pathlib
import re

TOP = pathlib.Path(__file__).resolve().parents[2]
SCENARIOS = TOP / "tests/scenarios"
CONNECTIONS, FULL, ANYTHING, RULE = ("http", "cut"), "/dev/full", "...", "rule: "
MARKED = re.compile(r"([$><!?#])(?: (.*))?")
ESCAPE = re.compile(rb"\\(\\|n|x[0-9a-f]{2}|$)")


@dataclasses.dataclass
class Step:
    """A step, and what is expected of it; an `err` of None is anything. What is given is written as
    a file, where `written` names one."""

    line: str
    kind: str
    words: list[str]
    given: bytes = b""
    written: str | None = None
    out: bytes = b""
    err: bytes | None = b""
    status: int = 0


@dataclasses.dataclass
class Transcript:
    """The steps of a scenario in its folder, and the database with which it begins."""

    folder: pathlib.Path
    steps: list[Step]
    database: str | None


def read(folder: pathlib.Path) -> Transcript:
    """The transcript in a folder."""
    database, parts = None, parts_of((folder / "transcript").read_bytes().decode())
    if parts and parts[0][0].startswith("database "):
        database = parts.pop(0)[0].removeprefix("database ")
    return Transcript(folder, [step_of(folder, *part) for part in parts], database)


def parts_of(text: str) -> list[tuple[str, list[tuple[str, str]]]]:
    """The line of each step, and the lines below it with their marks."""
    parts: list[tuple[str, list[tuple[str, str]]]] = []
    for line in text.removesuffix("\n").split("\n"):
        found = MARKED.fullmatch(line)
        mark, rest = (found[1], found[2] or "") if found else ("", line)
        if mark == "$":
            parts.append((rest, []))
        elif mark != "#":
            parts[-1][1].append((mark, rest))
    return parts


def step_of(folder: pathlib.Path, line: str, below: list[tuple[str, str]]) -> Step:
    """A step by its line and those below it."""
    plain, *named = re.split(r" (<|2?>) ", line)
    files = dict(zip(named[::2], named[1::2]))
    kind, *words = plain.split(" ")
    told = {mark: [rest for each, rest in below if each == mark] for mark in ("", *"><!?")}
    step = Step(line, "full" if files.get(">") == FULL else kind, words)
    is_connection = kind in CONNECTIONS
    step.given = bytes_of(told[">"], is_connection)
    step.out = bytes_of(told["<" if is_connection else ""], is_connection)
    step.err = None if told["!"] == [ANYTHING] else bytes_of(told["!"], False)
    step.status = int(told["?"][0]) if told["?"] else 0
    if told[">"] and kind == "ocs" and words[0] != "once":
        step.written = words[2]
    return with_files(folder, step, files)


def with_files(folder: pathlib.Path, step: Step, files: dict[str, str]) -> Step:
    """The step with what files beside the transcript have of it."""
    if "<" in files:
        step.given = (folder / files["<"]).read_bytes()
    if files.get(">", FULL) != FULL:
        step.out = (folder / files[">"]).read_bytes()
    if "2>" in files:
        step.err = (folder / files["2>"]).read_bytes()
    return step


def bytes_of(lines: list[str], is_connection: bool) -> bytes:
    """The bytes of lines of text, or of lines of a connection."""
    if is_connection:
        return b"".join(map(unescaped, lines))
    return "".join(line + "\n" for line in lines).encode()


def unescaped(line: str) -> bytes:
    """The bytes of a line of a connection, with its end."""
    is_open = len(line) - len(line.rstrip("\\")) & 1
    return ESCAPE.sub(byte_of, line.encode()) + (b"" if is_open else b"\r\n")


def byte_of(found: re.Match[bytes]) -> bytes:
    """The bytes of an escape; none for the backslash at the end of a line."""
    told = found[1]
    return bytes.fromhex(told[1:].decode()) if told[:1] == b"x" else told.replace(b"n", b"\n")

