"""Reads the public calls of the libraries off their sources, for docs/make-proofs: each with its words, its clauses and the lines it is in.

A call is a function that a user of the crate can name: a function that its first file exports or that is in a public module, or a method
of such a type. What a type has of a trait is a call of the type. Sources are laid out by `rt fmt`, and read line by line by that layout.
"""

import re
from pathlib import Path

CRATES = Path(__file__).resolve().parent.parent / "crates"

FN = re.compile(r'( *)(pub )?(?:pub\(\w+\) )?(?:const |unsafe |extern "C" )*fn (\w+)')
BLOCK = re.compile(r"(?:pub(?:\(\w+\))? )?(impl|trait)\b(.*)")
TYPE = re.compile(r"(?:pub(?:\(\w+\))? )?(?:struct|enum) (\w+)")
ALIAS = re.compile(r"^pub type (\w+)[^=]*= (?:\w+::)*(\w+)", re.M)
CLAUSE = re.compile(r"\b(requires|ensures)\b(?: (\w+))? \{")
GHOST = re.compile(r"^    ghost (\w+)(?:: \{[^}]*\})? = \{", re.M)


class Clause:
    """A clause of a contract: whether it is required, its name, which may be empty, and its text."""

    def __init__(self, kind, name, text):
        self.is_required, self.name, self.text = kind == "requires", name or "", " ".join(text.split())


class Block:
    """What functions are in: a type's own functions, what it has of a trait, or a trait."""

    def __init__(self, kind, words, said, text):
        self.is_trait, self.said = kind == "trait", said
        trait, _, owner = unwrapped(words).rpartition(" for ")
        self.trait = re.split(r"[<\s]", trait.split("::")[-1])[0]
        self.of = owner.strip()
        name = re.match(r"(?:\w+::)*(\w+)", self.of)
        self.owner = name[1] if name else self.of
        self.ghosts = [Clause("ensures", found[1], text[found.end():end_of(text, found.end())]) for found in GHOST.finditer(text)]


class Function:
    """A function: where it is, its comment, its head and its contract."""

    def __init__(self, crate, path, block, found, said, lines):
        self.crate, self.path, self.block, self.said, self.name = crate, path, block, said, found[3]
        self.is_pub, self.first, self.last = bool(found[2]), lines[0], lines[1]
        self.head, self.clauses = "", []

    def title(self):
        """The name with its type's, or with its public module's."""
        return f"{self.block.owner}::{self.name}" if self.block else self.name


def unwrapped(words):
    """Words after `impl` or `trait`, without parameters before and what follows the name."""
    words = words.strip().removesuffix("{").removesuffix("{}").strip()
    if words.startswith("<"):
        depth = 0
        for at, letter in enumerate(words):
            depth += {"<": 1, ">": -1}.get(letter, 0)
            if depth == 0:
                words = words[at + 1:].strip()
                break
    return re.split(r" where\b", words)[0]


def end_of(text, at):
    """Where the brace that was opened before this place is closed."""
    depth = 1
    while depth and at < len(text):
        depth += {"{": 1, "}": -1}.get(text[at], 0)
        at += 1
    return at - 1


def clauses_of(head):
    """The clauses of a function's head."""
    found, at = [], 0
    while match := CLAUSE.search(head, at):
        at = end_of(head, match.end())
        found.append(Clause(match[1], match[2], head[match.end():at]))
    return found


def head_of(lines, at, indent):
    """The lines of a function's head, from where it begins; and the line at which its body begins, or which ends it where it has none."""
    head, depth = [], 0
    while True:
        line = lines[at]
        if not line.strip().startswith("//"):
            head.append(line)
        has_clause = any(CLAUSE.search(it) for it in head)
        if line in (indent + "{", indent + "{}") or (line.endswith((" {", "{}")) and not has_clause):
            return head, at
        depth += line.count("{") - line.count("}")
        if line.endswith(";") and depth == 0:
            return head, at
        at += 1


def said_above(lines, at):
    """The documentation above a line, by paragraphs."""
    said = []
    while at and (lines[at - 1].strip().startswith(("///", "#["))):
        at -= 1
        if lines[at].strip().startswith("///"):
            said.insert(0, lines[at].strip().removeprefix("///").strip())
    return [" ".join(part.split("\n")) for part in "\n".join(said).split("\n\n") if part.strip()]


class Source:
    """A file of a crate: its functions, and its types with their comments."""

    def __init__(self, crate, path):
        self.crate, self.path, self.text = crate, path, path.read_text(encoding="utf-8")
        self.lines = self.text.splitlines()
        self.functions, self.types = [], {}
        self.read()

    def read(self):
        block, at = None, 0
        while at < len(self.lines):
            line = self.lines[at]
            if found := BLOCK.match(line):
                block = None if line.endswith("{}") else self.block_at(found, at)
            elif line == "}":
                block = None
            elif found := TYPE.match(line):
                self.types[found[1]] = said_above(self.lines, at)
            if found := FN.match(line):
                at = self.read_function(found, block if found[1] else None, at)
            at += 1

    def block_at(self, found, at):
        end = next((n for n in range(at, len(self.lines)) if self.lines[n] == "}"), at)
        words = " ".join(self.lines[at:next(n for n in range(at, end + 1) if self.lines[n].endswith("{")) + 1])
        kind, words = BLOCK.match(" ".join(words.split())).groups()
        if kind == "trait":
            words = re.split(r"[:{]", words)[0]
        return Block(kind, words, said_above(self.lines, at), "\n".join(self.lines[at:end]))

    def read_function(self, found, block, at):
        head, body = head_of(self.lines, at, found[1])
        last = body
        if self.lines[body] == found[1] + "{" or self.lines[body].endswith(" {"):
            last = next(n for n in range(body, len(self.lines)) if self.lines[n] == found[1] + "}")
        function = Function(self.crate, self.path, block, found, said_above(self.lines, at), (at, last))
        function.head, function.clauses = "\n".join(head), clauses_of("\n".join(head))
        self.functions.append(function)
        return last


class Crate:
    """A crate: its comment, its files in order, what it exports, and its calls."""

    def __init__(self, name):
        self.name, self.folder = name, CRATES / name / "src"
        first = next(it for it in (self.folder / "lib.rt", self.folder / "main.rt") if it.exists())
        self.first = first.read_text(encoding="utf-8")
        self.head = " ".join(line.removeprefix("//!").strip() for line in self.first.splitlines() if line.startswith("//!"))
        self.sources = [Source(name, path) for path in sorted(self.folder.rglob("*.rt")) if path.stem != "tests"]
        self.is_open = first.stem == "main" or not re.search(r"^pub use", self.first, re.M)
        self.exported = set(re.findall(r"\w+", " ".join(re.findall(r"^pub use \w+::([^;]+);", self.first, re.M))))
        self.modules = set(re.findall(r"^pub mod (\w+)", self.first, re.M)) - {"laws"}
        self.aliases = dict(found for source in self.sources for found in ALIAS.findall(source.text))

    def is_exported(self, source, name):
        return self.is_open or name in self.exported or source.path.stem in self.modules

    def types(self):
        """The comment on each type."""
        return {name: said for source in self.sources for name, said in source.types.items()}

    def traits(self):
        """The public traits' functions."""
        functions = [(source, it) for source in self.sources for it in source.functions if it.block and it.block.is_trait]
        return [it for source, it in functions if self.is_exported(source, it.block.owner)]

    def calls(self, traits):
        """The public calls, in the order of the files; `traits` are the public traits of all crates, whose methods types have."""
        declared = set(self.types())
        for source in self.sources:
            if source.path.stem != "laws":
                for it in source.functions:
                    if self.is_call(source, it, declared, traits):
                        yield it

    def is_call(self, source, it, declared, traits):
        block = it.block
        if block is None:
            return it.is_pub and self.is_exported(source, it.name)
        if block.is_trait:
            return self.is_exported(source, block.owner)
        if block.owner in declared or block.owner in self.aliases:
            if not self.is_exported(source, block.owner):
                return False
        elif not block.trait:
            return False
        return it.is_pub or block.trait in traits


class Uses:
    """What a file takes of other crates: which names it gives to which, and its text without remarks and contracts."""

    def __init__(self, path):
        self.path, text = path, re.sub(r"//[^\n]*", "", path.read_text(encoding="utf-8"))
        text = re.sub(r"^ *(?:ghost|requires|ensures)\b[^\n]*", "", text, flags=re.M)
        uses = re.compile(r"^(?:pub )?use ([^;]+);", re.M)
        self.names = {}
        for tree in uses.findall(text):
            for way, local in leaves(" ".join(tree.split())):
                self.names[local] = (way[0], way[-1])
        self.text = uses.sub("", text)
        self.names |= {name: (crate, name) for crate, name in re.findall(r"\b(bgp_\w+)::(\w+)\b", self.text)}


def leaves(tree):
    """What a tree of `use` names: each way, with the name that it gets."""
    front, brace, inside = tree.partition("{")
    if not brace:
        way, _, other = tree.strip().partition(" as ")
        steps = way.strip().split("::")
        return [(steps, other.strip() or steps[-1])]
    depth, part, found = 0, "", []
    for letter in inside[:inside.rfind("}")] + ",":
        depth += {"{": 1, "}": -1}.get(letter, 0)
        if letter == "," and depth == 0:
            if part.strip():
                found += leaves(front + part.strip())
            part = ""
        else:
            part += letter
    return found

