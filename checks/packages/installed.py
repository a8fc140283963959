"""What installed documents say: links, paths, programs and consoles, of a folder with NAME.md or NAME.md.gz."""
import gzip
import re
import sys
import pathlib

TOP = pathlib.Path(__file__).resolve().parent.parent.parent
sys.path.insert(0, str(TOP / "packaging"))
import documents

LAST = "\nNot beside this file: "


def text_of(path):
    octets = path.read_bytes()
    return (gzip.decompress(octets) if path.suffix == ".gz" else octets).decode()


def names_in(folder):
    """The documents of a folder, each its name without .gz and its path."""
    return {path.name.removesuffix(".gz"): path for path in sorted(folder.iterdir()) if re.fullmatch(r"[A-Z]+\.md(\.gz)?", path.name)}


def broken(folder):
    """Links of documents that lead to nothing beside them."""
    for name, path in names_in(folder).items():
        for to in re.findall(r"\]\(([^)#\s]+)[^)\s]*\)", text_of(path)):
            if "://" not in to and not (folder / to).exists():
                yield f"{name}: {to}"


def unsaid(folder):
    """Documents and paths of the tree that documents name, which aren't beside them, and of which their last paragraph says nothing."""
    has = names_in(folder)
    for name, path in has.items():
        text, _, last = text_of(path).partition(LAST)
        for it in [*documents.DOCUMENTS.finditer(text), *documents.PATHS.finditer(text)]:
            is_there = it[0] in has or (folder / it[0]).exists() or it[0] == "CHANGELOG.md"
            if not is_there and not {it[0], f"`{it[0]}`", f"`{it[0].partition('/')[0]}/`"} & set(re.split(r"[,:;] |\n", last)):
                yield f"{name}: {it[0]}"


def page_faults(root):
    """Files of the system that manual pages name, and that don't exist."""
    for page in sorted(root.glob("usr/share/man/man*/*")):
        for path in re.findall(r"^\.I (/usr/share/doc/\S+)", text_of(page), re.M):
            if not (root / path.lstrip("/")).exists():
                yield f"{page.name}: {path}"


def programs(text, language):
    """The programs in a language that a document shows."""
    return re.findall(rf"^```{language}\n(.*?)^```$", text, re.M | re.S)


def fragments(text):
    """The parts of programs in C that a document shows, as one file: each is a function, with what fragments.h leaves to its host."""
    found = enumerate(programs(text, "c"), 1)
    return '#include "fragments.h"\n' + "".join(f"\nvoid *fragment_{number}(void);\nvoid *fragment_{number}(void)\n{{\n{it}return NULL;\n}}\n" for number, it in found)


# Each fragment uses a part of what it shares with others.
FRAGMENTS_FLAGS = ["-std=c99", "-Wall", "-Wextra", "-Werror", "-Wno-unused", "-fsyntax-only"]


def consoles(text):
    """The commands that a document shows, each with the lines below it."""
    for block in re.findall(r"(?:^    .*\n)+", text, re.M):
        for asked, told in re.findall(r"^    \$ (.*)\n((?:    (?!\$ ).*\n)*)", block, re.M):
            yield asked, [line[4:] for line in told.splitlines()]


def runs_alone(asked, written):
    """Whether a command reads nothing but examples, and what commands before it wrote."""
    if not re.match(r"bgp (show|check|explain|clean|narrow|from-hex|to-hex|loop)\b", asked):
        return False
    read = re.findall(r"(?:<|--opens) *(\S+)", asked) + re.findall(r"bgp loop (?:--\S+ )*(\S+)", asked)
    return bool(read) and all(re.match(r"examples/\w", it) or it in written for it in read)


def as_shown(printed, lines):
    """Whether what was printed is what a document shows, in which `..` replaces some lines, or for some of a line."""
    lines = [line.rstrip() for line in lines]
    pattern = "".join(r"(?:.*\n)*?" if line.strip() == ".." else re.escape(line).replace(re.escape(".."), ".*") + r" *\n" for line in lines)
    return re.fullmatch(pattern, printed) is not None
