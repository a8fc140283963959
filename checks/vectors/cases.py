"""The cases of the *.txt of this folder, which say how they are read."""
import collections
import pathlib
import re
import sys

HERE = pathlib.Path(__file__).resolve().parent
# A case: its name, its flags, the receiver's OPEN (none: it has flags), the octets, the command with its own flags, and the lines that are wanted.
Case = collections.namedtuple("Case", "name flags opens octets command want")
MARKER = "ff" * 16


def octets_of(text, names):
    """The octets of digits, repeated digits and names."""
    found = b""
    for word in text.split():
        count, _, digits = word.rpartition("*")
        found += names.get(word) or bytes.fromhex(MARKER if word == "M" else digits) * int(count or 1)
    return found


def wants_in(lines):
    """What is wanted by each command, as its words and the lines."""
    found = []
    for line in lines:
        if line == "want" or line.startswith("want "):
            found.append((line.split()[1:], []))
        else:
            found[-1][1].append(line)
    return found


def read_case(lines, names, blocks):
    """The cases of one's lines: one for each command."""
    at = lines.index("want")
    given = collections.defaultdict(list)
    for line in lines[:at]:
        word, _, rest = line.partition(" ")
        given[word].append(rest)
    if set(given) - {"case", "flags", "opens", "octets", "command"} or ("flags" in given) == ("opens" in given) or len(given["case"]) != 1:
        raise ValueError
    name, first = given["case"][0], (given["command"] or ["show"])[0].split()
    opens = octets_of(" ".join(given["opens"]), names) if "opens" in given else None
    octets = octets_of(" ".join(given["octets"]), names)
    found = []
    for words, wanted in wants_in(lines[at:]):
        wanted = [it for line in wanted for it in blocks.get(line, [line])]
        want = [re.sub("<([^>]*)>", lambda it: octets_of(it[1], names).hex(), line) for line in wanted]
        title = f"{name}: {' '.join(words)}" if words else name
        found.append(Case(title, " ".join(given["flags"]).split(), opens, octets, words or first, want))
    return found


def read_cases(files="*.txt"):
    """The cases of all files of such names."""
    found = []
    for path in sorted(HERE.glob(files)):
        names, blocks = {}, {}
        for block in re.split(r"\n\s*\n", path.read_text()):
            lines = [line for line in block.splitlines() if not line.startswith("#")]
            for line in [it for it in lines if it.startswith("name ")]:
                _, name, text = line.split(" ", 2)
                names[name] = octets_of(text, names)
            lines = [it for it in lines if not it.startswith("name ")]
            if lines and lines[0].startswith("lines "):
                blocks[lines[0].partition(" ")[2]] = lines[1:]
                continue
            try:
                found += read_case(lines, names, blocks) if lines else []
            except ValueError:
                sys.exit(f"vectors: {path.name}: this is no case: {lines[0]}")
    if len({it.name for it in found}) < len(found):
        sys.exit("vectors: two cases have one name")
    return found


def names_in(flags):
    """The names of flags; those of `--paths` are paths4 and paths6."""
    words, found = iter(flags), set()
    for word in words:
        name, _, value = word.removeprefix("--").partition("=")
        found |= {f"paths{family.removeprefix('ip')}" for family in (value or next(words)).split(",")} if name == "paths" else {name}
    return found


def altered(case):
    """The case with each line altered in its last letter, and without each line."""
    for at, line in enumerate(case.want):
        for other in ([line[:-1] + ("2" if line.endswith("1") else "1")], []):
            yield case._replace(want=[*case.want[:at], *other, *case.want[at + 1 :]])
