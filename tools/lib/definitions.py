"""The definitions of a house of crates, and what each of them names: tools/repo statement reads them.

A file more costs one reading. A kind of item more is a part of `START` and of `House.refers`."""
import collections
import functools
import re

MARK = r"(?:(?:abbrev|unfoldable|pub|pattern)\s+)*"
START = re.compile(rf"{MARK}(?:(record|data)\s+([^\s:(){{}}]+)|([^\s:(){{}}]+)\s*:(?=\s|$))")
HEADER = re.compile(r"(pub )?(use|mod) ")
USE = re.compile(
    r"^\s*(?:pub |ghost )*use (Rattle\.[^;{\s]*[^;{\s.])"
    r"(?:\.\{([^}]*)\}|(?: as (\S+?))?)(?:;|\s*$)",
    re.M,
)
WORD = re.compile(r"«[^»]*»|[^\s(){}\[\],;«»\"]+")
RUST_WORD = re.compile(r"[A-Za-z_]\w*")
RUST_USE = re.compile(r"^\s*(?:pub )?use ([\w:]+?)::(?:\{([^}]*)\}|(\w+(?: as \w+)?));", re.M)
RESULT = re.compile(r"\s*(?:->[^{;]*?(?=\s*(?:requires|ensures|succeeds|\{|;)))?")
CLAUSE = re.compile(r"\s*(?:requires|ensures|succeeds)\b[^{;]*")
FIELD = re.compile(r"([{;]\s*)([\w'-]+)(?=\s*=[\s(])")
BINDERS = re.compile(
    r"λ\s*([^.]+?)\.(?=\s|$)|[({]([^(){}:=]+?)\s:\s|let\s+([\w'-]+)|(?<=[\[|])([^\[|↦]+)↦"
)


class Item:
    """Something that a reader meets: a definition of specs/, a Rust type or a contract."""

    def __init__(self, kind, name, crate, path, line, text, head="", first=""):
        self.kind, self.name, self.crate = kind, name, crate
        self.path, self.line, self.text, self.head = path, line, text, head
        self.code = [
            part for part in (bare(line).strip() for line in [first, *text.split("\n")]) if part
        ]

    def __str__(self):
        return f"{self.path}:{self.line} {self.name}"


def bare(line):
    """A line without its comment."""
    return re.sub(r"(^|\s)(--|//).*$", "", line)


def closed(text, at, pairs="{}"):
    """Where the bracket that opens at a place is closed."""
    depth = 0
    for place in range(at, len(text)):
        depth += (text[place] == pairs[0]) - (text[place] == pairs[1])
        if depth == 0:
            return place + 1
    return len(text)


def imports(text):
    """The names that `use` lines bring in: (module, name), or (module, None) of a whole module."""
    names = {}
    for module, leaves, alias in USE.findall(text):
        if not leaves:
            names[alias or module.rsplit(".", 1)[1]] = (module, None)
        for leaf in filter(None, (part.strip() for part in leaves.split(","))):
            name, _, other = leaf.partition(" as ")
            names[(other or name).strip()] = (module, name.strip())
    return names


class SpecFile:
    """A file of specs/: its definitions, the constructors of its types, and what it imports."""

    def __init__(self, crate, path, shown):
        self.names = imports(path.read_text())
        self.items, self.constructors = {}, {}
        self.at, self.block, self.around, blocks, opened = 0, [], ("", ""), [], ""
        for number, line in enumerate([*path.read_text().split("\n"), "end : "], 1):
            text, indent = line.strip(), len(line) - len(line.lstrip())
            if opened and not opened.endswith("where"):
                opened += " " + text
                blocks[-1][1] = opened
                continue
            if text and not text.startswith(("--", "}", ")")):
                while blocks and indent <= blocks[-1][0]:
                    blocks.pop()
                if blocks and blocks[-1][2] is None:
                    blocks[-1][2] = indent
            if text.startswith("module _"):
                opened = text
                blocks.append([indent, text, None])
            elif (
                indent == (blocks[-1][2] if blocks else 0)
                and START.match(text)
                and not HEADER.match(text)
            ):
                self.add(crate, shown)
                self.at, self.block = number, [line]
                self.around, opened = ("\n".join(block[1] for block in blocks), opened), ""
            elif self.block and not text.startswith("-- "):
                self.block.append(line)

    def add(self, crate, shown):
        """Adds the definition that ends. The heads of the blocks with parameters around it count to
        the first one."""
        if not self.block:
            return
        found = START.match(self.block[0].strip())
        kind = found[1] or (
            "unfoldable" if self.block[0].strip().startswith("unfoldable") else "abbrev"
        )
        item = Item(
            kind,
            found[2] or found[3],
            crate,
            shown,
            self.at,
            "\n".join(self.block).rstrip(),
            *self.around,
        )
        self.items[item.name] = item
        if kind == "data":
            names = re.findall(r"^\s+(?:pub )?([^\s:(){}]+) :", item.text, re.M)
            self.constructors.update({name: item for name in names})


class RustFile:
    """A file of src/: its functions, types, models and traits, and what it imports."""

    def __init__(self, path, shown):
        self.shown = shown
        self.text = "\n".join(
            re.sub(r"^\s*//.*$", "", line) for line in path.read_text().split("\n")
        )
        self.names, self.uses = imports(self.text), {}
        for base, leaves, one in RUST_USE.findall(self.text):
            for leaf in filter(None, (part.strip() for part in (leaves or one).split(","))):
                name, _, other = leaf.partition(" as ")
                self.uses[other or name] = (base.split("::")[0], name)
        self.types = self.heads(r"^\s*pub(?:\(crate\))? (?:struct|enum) (\w+)")
        self.traits = self.heads(r"^\s*pub trait (\w+)")

    def heads(self, pattern):
        """Where items of a kind begin, by their names."""
        return {found[1]: found for found in re.finditer(pattern, self.text, re.M)}

    def body(self, found):
        """The text of a type or a trait, from its keyword on."""
        ends = re.compile(r"[{;(]").search(self.text, found.end())
        pairs = {"{": "{}", "(": "()"}.get(ends[0])
        return self.text[
            found.start() : closed(self.text, ends.start(), pairs) if pairs else ends.end()
        ]

    def model(self, name):
        """The value that contracts see of a type, where it has a model."""
        found = re.search(rf"^impl(?:<[^>]*>)? Model for {name}\b.*?\{{", self.text, re.M)
        block = found and self.text[found.start() : closed(self.text, found.end() - 1)]
        value = block and re.search(r"ghost Value =\s*\{(.*?)\};", block, re.S)
        return value and (value[1], {**self.names, **imports(block)})

    def functions(self, wanted):
        """The public functions of a name, or all, each with its signature and its clauses."""
        owner, _, name = wanted.rpartition("::")
        for found in re.finditer(r"^\s*pub fn (%s)\b" % (name or r"\w+"), self.text, re.M):
            before = re.findall(
                r"^impl(?:<[^{]*?>)? (?:.* for )?(\w+)", self.text[: found.start()], re.M
            )
            if owner and (not before or before[-1] != owner):
                continue
            at = self.text.index("(", found.end())
            end = closed(self.text, at, "()")
            clauses = RESULT.match(self.text, end).end()
            while clause := CLAUSE.match(self.text, clauses):
                clauses = closed(self.text, clause.end())
            line = self.text.count("\n", 0, found.start()) + 1 + (self.text[found.start()] == "\n")
            yield found[1], line, self.text[found.start() : clauses]


class House:
    """All crates of a folder: what each item refers to, in the order of its text."""

    def __init__(self, top):
        self.specs, self.rust, self.types = {}, {}, {}
        for path in sorted(top.glob("crates/*/specs/**/*.antt")):
            crate, place = path.relative_to(top / "crates").parts[0], path.relative_to(
                top / "crates"
            )
            module = ".".join(("Rattle", *place.with_suffix("").parts)).removesuffix(".Lib")
            self.specs[module] = SpecFile(crate, path, str(place))
        for path in sorted(top.glob("crates/*/src/**/*.rt")):
            place = path.relative_to(top / "crates")
            self.rust[(place.parts[0], path.stem)] = RustFile(path, str(place))
        for (crate, module), file in self.rust.items():
            for name, found in {**file.types, **file.traits}.items():
                text = file.body(found)
                kind = "trait" if name in file.traits else "type"
                line = file.text.count("\n", 0, found.start(0)) + 1 + found[0].startswith("\n")
                self.types[(crate, name)] = Item(kind, name, crate, file.shown, line, text)
        self.spec_of = {
            id(item): file for file in self.specs.values() for item in file.items.values()
        }
        self.library = collections.defaultdict(set)

    def type_of(self, crate, name):
        """A Rust type by the crate that hands it out."""
        if (crate, name) in self.types:
            return self.types[(crate, name)]
        root = self.rust.get((crate, "lib"))
        base, other = (root.uses.get(name) if root else None) or (None, name)
        return self.types.get((base, other))

    def look_up(self, module, name):
        """An item by its module and its name; text of the library."""
        parts = module.split(".")
        if len(parts) > 3 and parts[3] in ("declared", "contracts"):
            names = [part for part in parts[4:] if part[:1].isupper()]
            trait = (
                re.sub(r"(Partial)?(Eq|Ord|Hash|Clone|Copy|Display|Debug)$", "", names[0])
                if names
                else name
            )
            return (
                self.type_of(parts[1], trait)
                or self.type_of(parts[1], names[0] if names else name)
                or module
            )
        file = self.specs.get(module)
        if not file:
            return module
        if name in file.items or name in file.constructors:
            return file.items.get(name) or file.constructors[name]
        return (
            self.look_up(*file.names[name])
            if name in file.names and file.names[name][1]
            else module
        )

    def resolve(self, word, names, file):
        """What a word of a text means: an item, a text of the library, or None for a variable."""
        head, *rest = word.split(".")
        for spelled in (head, f"◌{head}◌"):
            if file and spelled in file.items:
                return file.items[spelled]
            if file and spelled in file.constructors:
                return file.constructors[spelled]
            if spelled in names:
                module, name = names[spelled]
                if name is None:
                    return self.look_up(module, rest[0]) if rest else None
                found = self.look_up(module, name)
                return found if isinstance(found, Item) else f"{found}.{name}"
        return None

    def is_constructor(self, word, names, file):
        found = self.resolve(word, names, file)
        if isinstance(found, Item):
            return found.kind in ("data", "type") and word.split(".")[0] != found.name
        return found is not None

    def parts(self, item):
        """The parts of a definition in which variables are bound apart: its signature, then each
        clause."""
        if item.kind in ("record", "data"):
            return ["\n".join([item.head, *item.code])]
        parts = [[]]
        for line in item.text.split("\n"):
            words = line.split()
            if words and words[0] == item.name and "=" in words or line.strip().startswith("where"):
                parts.append([])
            parts[-1].append(bare(line))
        return ["\n".join(part) for part in parts]

    def bound(self, item, part, names, file):
        """The variables of a part."""
        found = set()
        for groups in BINDERS.findall(item.head + "\n" + part):
            found.update(word for group in groups for word in WORD.findall(group))
        if item.kind == "record":
            found.update(re.findall(r"^pub ([^\s:]+) :", part, re.M))
        elif item.kind != "data":
            lefts = part.split("\n") if part.strip().startswith("where") else [part]
            for left in lefts if part is not self.parts(item)[0] else []:
                found.update(WORD.findall(left.split(" =", 1)[0]) if " =" in left else [])
        _, _, helpers = item.text.partition(
            "\n" + " " * (len(item.text) - len(item.text.lstrip())) + "  where\n"
        )
        found.update(re.findall(r"^ +([\w'-]+) :", helpers, re.M))
        return {word for word in found if not self.is_constructor(word, names, file)} - {item.name}

    @functools.lru_cache(maxsize=None)
    def words(self, item):
        """The words of a definition, part by part: (word, what it means)."""
        file = self.spec_of[id(item)]
        told = []
        for part in self.parts(item):
            variables = self.bound(item, part, file.names, file)
            text = FIELD.sub(r"\1", part if told else item.head + "\n" + part)
            words = [word for word in WORD.findall(text) if not word.startswith(".")]
            told.append(
                [
                    (
                        word,
                        None
                        if word.split(".")[0] in variables
                        else self.resolve(word.rstrip("."), file.names, file),
                    )
                    for word in words
                ]
            )
        return told

    def rust_words(self, item):
        """What the text of a Rust type or a contract means, word by word."""
        file = next(one for one in self.rust.values() if one.shown == item.path)
        model = item.kind == "type" and file.model(item.name)
        if model:
            return [self.resolve(word, model[1], None) for word in WORD.findall(model[0])]
        found, text = [], item.text
        for ghost in (
            re.findall(r"ghost \w+: \{(.*?)\};", text, re.S) if item.kind == "trait" else []
        ):
            found += [self.resolve(word, file.names, None) for word in WORD.findall(ghost)]
        types, ensures, clauses = (
            text.partition("ensures") if item.kind == "contract" else (text, "", "")
        )
        if "enum" in item.code[0]:
            types = re.sub(r"^    \w+", "", types, flags=re.M)
        for word in RUST_WORD.findall(types) if item.kind != "trait" else []:
            base, name = file.uses.get(word, (item.crate, word))
            found.append(self.type_of(item.crate if base == "crate" else base, name))
        return found + [self.resolve(word, file.names, None) for word in WORD.findall(clauses)]

    @functools.lru_cache(maxsize=None)
    def refers(self, item):
        """The items that an item names, each once, in the order of its text."""
        if id(item) in self.spec_of:
            found = [what for part in self.words(item) for _, what in part]
        else:
            found = self.rust_words(item)
        self.library[item].update(what for what in found if isinstance(what, str))
        return list(
            dict.fromkeys(what for what in found if isinstance(what, Item) and what is not item)
        )

    def begins(self, crate, wanted):
        """The items from which a statement is read."""

        def contracts(file, name):
            return [
                Item("contract", name, crate, file.shown, line, text)
                for name, line, text in file.functions(name)
            ]

        if (crate, wanted) in self.rust:
            return contracts(self.rust[(crate, wanted)], "")
        found = [
            one
            for (of, _), file in self.rust.items()
            if of == crate
            for one in contracts(file, wanted)
        ]
        found += [file.items[wanted] for file in self.specs.values() if wanted in file.items]
        return [one for one in found if one.crate == crate][:1]
