"""Programs that call crates of this repository, for the scripts that time a crate by itself."""
import os
import pathlib
import shutil
import subprocess
import sys

TOP = pathlib.Path(__file__).resolve().parent.parent


def built(folder, name, uses, text, revision=None):
    """The path of a program of this name and text, which uses these crates.

    It is in a repository in the folder, with the crates of the working tree or of a revision and what the
    working tree's checks kept of them: `rt run` proves and builds it, and what isn't kept of the crates. Where
    the folder has the program already, it is taken as it is."""
    folder = pathlib.Path(folder).resolve()
    program = folder / "crates" / name
    binary = program / "out" / name
    if binary.exists():
        return str(binary)
    lines = listed(revision)
    crates = with_below([crate for crate in uses.split() if crate in lines], lines)
    copied(folder, crates, revision)
    shutil.copy(TOP / "HANDLES", folder)
    of_program = f"{name}: {uses}"
    (folder / "crates.txt").write_text("".join(f"{line}\n" for line in (*map(lines.get, crates), of_program)))
    for file, content in (("src/main.rt", text), ("specs/Lib.antt", ""), ("proofs/Lib.antt", "")):
        (program / file).parent.mkdir(parents=True, exist_ok=True)
        (program / file).write_text(content)
    ran = subprocess.run(["rt", "run"], cwd=program, stdin=subprocess.DEVNULL, stdout=subprocess.PIPE,
                         stderr=subprocess.STDOUT, text=True)
    if not binary.exists():
        sys.exit(ran.stdout)
    return str(binary)


def listed(revision):
    """The lines of crates.txt by the names of their crates."""
    text = output_of("show", f"{revision}:crates.txt").decode() if revision else (TOP / "crates.txt").read_text()
    return {line.split(":")[0]: line for line in text.splitlines() if ":" in line and line[0] != "#"}


def with_below(names, lines):
    """These crates, and those that they use."""
    names = list(names)
    for name in names:
        below = lines[name].split(":")[1].split()
        names += [crate for crate in below if crate in lines and crate not in names]
    return names


def copied(folder, crates, revision):
    """Puts the crates into the folder, with what the working tree's checks kept of them."""
    (folder / "crates").mkdir(parents=True, exist_ok=True)
    if revision:
        archive = output_of("archive", revision, *(f"crates/{crate}" for crate in crates))
        subprocess.run(["tar", "-x", "-C", folder], input=archive, check=True)
    for crate in crates:
        source = TOP / "crates" / crate / ("out" if revision else "")
        target = folder / "crates" / (crate if revision else "")
        if os.path.exists(source):
            subprocess.run(["cp", "-a", source, target], check=True)


def output_of(*words):
    """What git prints."""
    return subprocess.run(["git", "-C", TOP, *words], stdout=subprocess.PIPE, check=True).stdout
