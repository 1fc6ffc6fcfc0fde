"""The doors of tools/: their words, the file of each in lib/, what it looks at and what it needs beside
the program."""
import os
import sys

LIB = os.path.join(os.path.dirname(os.path.abspath(__file__)), "lib")
DOORS = {
    "repo": (
        ("index", "index", "links, tags, rows of the index, heads of files, paths of lemmas", ""),
        ("words", "words", "man page, completions and examples of FORMATS beside the program", "curl, bash"),
        ("openapi", "openapi", "each route of docs/openapi.yaml, asked for", "Python's yaml and jsonschema"),
        ("statement", "statement", "the definitions that a promise reaches", ""),
        ("sizes", "sizes", "how large the crates and their contracts are", ""),
        ("cost", "cost", "what a check keeps of each function", ""),
        ("edits", "edits", "wrong bodies: whether they apply, and the prover refuses them", "rt"),
        ("skeleton", "skeleton", "the keeper that a page prints, proved", "rt"),
        ("noticed", "noticed", "whether each tool notices a changed program", "gcc"),
        ("zones", "zones", "makes the tables of clocks of tests/zones", "zic"),
    ),
    "play": (
        ("streams", "streams", "lines of requests with their answers", ""),
        ("scenarios", "scenarios", "days of words and connections, with the rows at their ends", ""),
        ("served", "served", "scenarios as requests over a connection", ""),
        ("migrations", "migrations", "databases of older versions", ""),
        ("http", "http", "connections by curl, peers that wait, clocks", "curl"),
        ("opening", "opening", "what is no database, and rows that another writer left", ""),
        ("rows", "rows", "the selections of docs/rows.sql", "sqlite3"),
        ("examples", "examples", "examples/ and the session of README", "curl"),
        ("clocks", "clocks", "what clocks of 300 zones show, beside tables of zic", "gcc"),
        ("instructions", "instructions", "instructions of a command, beside their limits", "valgrind"),
        ("days", "reckoned", "days of chance beside a model of the rules", ""),
        ("day", "day", "a day of 1,000 accounts with kills, beside the same model", ""),
        ("lines", "deploy", "each line of deploy/README.md by systemd, as root", "root, HAProxy, systemd"),
        ("shards", "shards", "what HAProxy does with an office's configuration", "HAProxy"),
        ("cluster", "cluster", "four shards beside one, account by account", "HAProxy"),
        ("redemptions", "redemptions", "codes redeemed over two shards", "HAProxy"),
    ),
    "faults": (
        ("files", "failing", "each call on the files of a database", "strace"),
        ("streams", "interrupted", "each read and write of its streams", "strace"),
        ("memory", "refusals", "each growth of memory", "gcc"),
        ("torn", "torn", "what a stop of the machine leaves of the files", "strace"),
        ("log", "flips", "bits of a log turned, a log cut short", ""),
        ("disks", "disks", "limits, rights and other users' files", ""),
        ("bytes", "hostile", "bytes changed by chance", ""),
        ("stops", "stops", "a server and words ended with -9", "strace"),
        ("lasting", "lasting", "one lasting server beside a process a command", "gcc"),
    ),
}


def go(door, said):
    """Does the word of a door, in this process's place; or says which there are."""
    words = {word: (file, does, needs) for word, file, does, needs in DOORS[door]}
    asked = sys.argv[1] if len(sys.argv) > 1 else "--help"
    if asked in ("-h", "--help"):
        print(said.strip() + "\n")
        for word, (_, does, needs) in words.items():
            print(f"  {word:12}{does}{' (needs ' + needs + ')' if needs else ''}")
        sys.exit(0 if len(sys.argv) > 1 else 2)
    if asked not in words:
        print(f"tools/{door} has no word {asked}: {' '.join(words)}", file=sys.stderr)
        sys.exit(2)
    os.environ["TOOL"] = f"tools/{door} {asked}"
    file = os.path.join(LIB, words[asked][0])
    os.execv(file, [file, *sys.argv[2:]])
