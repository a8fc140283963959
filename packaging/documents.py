"""Documents as they are installed, where `bgp` is on the path: a link leads to what is installed beside the document. Any other is text, and the last
paragraph says where that is, and the paths that only the source has.

usage: packaging/documents.py FILE FOLDER BESIDE ELSEWHERE PACKAGE

It prints FILE of the tree as it is installed into FOLDER. BESIDE names the documents that come to the same folder, ELSEWHERE those and the folders of
the package PACKAGE."""
import pathlib
import re
import sys

# What is first in the paths of the tree, and what starts there.
PATHS = re.compile(r"(?<![\w./-])(?:(checks|contrib|crates|bindings|docs|examples|packaging|tools|web)/[\w./*-]*\w|\./(?:build|prove|test)\b)")
DOCUMENTS = re.compile(r"\b(?:[A-Z]{4,}|C)\.md\b")
LINKS = re.compile(r"(!?)\[([^\]]*)\]\(([^)\s]*)\)")
MOVED = {"./bgp ": "bgp ", "docs/made/": "", "docs/": "", "dist/ristulva.html": "ristulva.html", "bindings/rust/examples": "examples/rust"}


def shown(link, beside):
    """A link as it is installed."""
    is_picture, text, to = link.groups()
    name = to.partition("#")[0].rpartition("/")[2]
    if "://" in to:
        return link[0]
    if is_picture:
        return f"({text})"
    if to.startswith("#") or name in beside:
        return re.sub(r"\]\((\.\./|made/)*", "](", link[0])
    return text if not name.endswith(".md") else name if text in (name, name[:-3]) else f"{text} ({name})"


def called(path, folder):
    """What the last paragraph calls a path of the tree: its first folder, where nothing of that is installed."""
    return f"`{path[1]}/`" if path[1] and not (folder / path[1]).exists() else f"`{path[0]}`"


def elsewhere_of(text, folder, beside, elsewhere):
    """What a document names that isn't beside it: what another package has, and what only the source has."""
    named = {(it[0], it[0]) for it in DOCUMENTS.finditer(text) if it[0] not in beside}
    named |= {(called(it, folder), it[1]) for it in PATHS.finditer(text) if not (folder / it[0]).exists()}
    return [sorted(name for name, of in named if (of in elsewhere) is is_there) for is_there in (True, False)]


def installed(text, folder, beside=(), elsewhere=(), package=""):
    """The text of a document as it is installed."""
    text = LINKS.sub(lambda link: shown(link, beside), text)
    for was, now in MOVED.items():
        text = text.replace(was, now)
    others, gone = elsewhere_of(text, folder, set(beside), set(elsewhere))
    parts = [f"{', '.join(names)}: {where}" for names, where in ((others, f"in the package `{package}`"), (gone, "in the source")) if names]
    return text + (f"\nNot beside this file: {'; '.join(parts)}.\n" if parts else "")


if __name__ == "__main__":
    if len(sys.argv) != 6:
        sys.exit((__doc__ or "").strip())
    _, file, where, here, there, whose = sys.argv
    sys.stdout.write(installed(pathlib.Path(file).read_text(), pathlib.Path(where), here.split(), there.split(), whose))
