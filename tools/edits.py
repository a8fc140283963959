"""Wrong bodies in groups: many of one crate are tried by one check, as `.ci/prove` has rt do it.

A proof cites the contracts of what its function calls, and no bodies. So wrong bodies of several functions are put into one copy of the crate, and one check
of these functions and those that they call says of each whether the prover refuses it. For each body alone rattle would read the libraries again, prove what
the function calls and look for what to offer where a goal is open: most of what a try takes.

A refusal of a function is what the check says of the function's own goals: that `search` did not prove one, at a place in the function, or an error in its own
answers. That it calls what isn't proved counts for nothing. Where another function has an open goal or an error, nothing of the check counts, and the group is
tried in halves. What isn't refused in its group is tried in the next one, over what was proved before, and then alone, from nothing: at the functions of its
files, and in the whole crate where these are proved. Alone are tried from the start: edits of specs/ or proofs/, or of more than the bodies of functions, and
what can't be read. Two of one function come in two groups."""
import collections
import os
import re
import shutil
import signal
import tempfile

# A function: its file, its name, its impl's type and trait, and three of its lines, from 0: its attributes' first, the one that its body begins after,
# and its last.
Function = collections.namedtuple("Function", "path name type trait first body last")

# An edit that a group can have: its file's name, the functions that it changes, and its lines by file and number.
Body = collections.namedtuple("Body", "name functions lines")

HEAD = re.compile(r'( *)(?:pub(?:\([^)]*\))? )?(?:const |unsafe |extern "C" )*fn (\w+)')
IMPL = re.compile(r"impl\b(.*) \{$")

# What a check says of a function with open goals of its own and no answers, and of one that calls what isn't proved.
OPEN = "`search` did not prove"
CALLS = re.compile(r"[;:] it (calls|passes) ")

# An error because a proof names what the edit took away, as rt's own words have it.
NAMES = re.compile(r"has no field|is not in scope|has no `|was not admitted")

# What the prover says where it met a limit of its own; a kit from 13f on has this itself.
LIMITS = re.compile(r"\blimit\b|memory|too deep|ran out|gave up|could not tell|a task ended early")
ONLY_NAMES = "(only because a proof file names what the edit took away, so this says little of the contract: change a value and keep the names)"


# ---- where an edit is ----


def plain(text):
    """A type or trait without its path and its arguments, of which rattle prints numbers."""
    before, text = None, re.sub(r"<(\d+)>", r"\1", text.partition(" where ")[0])
    while text != before:
        before, text = text, re.sub(r"<[^<>]*>", "", text)
    return text.strip().rpartition("::")[2]


def trait_of(text):
    """A trait as rattle prints it: its name, and what it is given where that is one name, as in `From<AllocError>`."""
    given = re.search(r"\b(\w+<\w+>)$", text)
    return re.sub(r"\W", "", given[1]) if given else plain(text)


def functions_of(path, lines):
    """The functions of a file in the layout of `rt fmt`: a body begins at the end of a line or with a line of its own, and ends with a line of its own."""
    found, kind, trait = [], "", ""
    for at, line in enumerate(lines):
        impl, head = IMPL.match(line), HEAD.match(line)
        if impl:
            trait, _, kind = impl[1].rpartition(" for ")
            trait, kind = trait_of(trait), plain(kind)
        elif line == "}":
            kind = trait = ""
        if not head or line.endswith((";", "}")):
            continue
        begins, ends, closes = head[1] + "{", head[1] + "}", head[1] + ")"
        body = at
        while body < len(lines) and lines[body] not in (begins, ends) and not (lines[body].endswith(" {") and (body == at or lines[body].startswith(closes))):
            body += 1
        last = next((it for it in range(body + 1, len(lines)) if lines[it] == ends), 0)
        first = at
        while lines[first - 1].lstrip().startswith(("#[", "//")):
            first -= 1
        if last and lines[body] != ends:
            found.append(Function(path, head[2], kind, trait, first, body, last))
    return found


def read_body(rt, crate, edit, name):
    """The edit as one that a group can have; None where it can't."""
    texts, _ = rt.read_edit(edit, crate.folder)
    changed, lines = set(), {}
    for path, text in (texts or {}).items():
        with open(f"{crate.folder}/{path}", encoding="utf-8") as it:
            old, new = it.read().split("\n"), text.split("\n")
        if not path.startswith("src/") or len(old) != len(new):
            return None
        functions = functions_of(path, old)
        for at in (it for it in range(len(old)) if old[it] != new[it]):
            inside = [it for it in functions if it.body < at < it.last or it.body == at and new[at].startswith(old[at])]
            if len(inside) != 1:
                return None
            changed.add(inside[0])
            lines[path, at] = new[at]
    return Body(name, frozenset(changed), lines) if changed else None


def module_of(function):
    return "::".join(it for it in function.path.removeprefix("src/").removesuffix(".rt").split("/") if it not in ("lib", "main"))


def path_of(function):
    """A function's path below the crate, or of a method the end of it, since rattle may have it in the module of its type."""
    return "::".join(it for it in (function.type + function.trait or module_of(function), function.name) if it)


def printed(function, names):
    """The function's name as a check has printed it; None where that isn't clear."""
    whole = "::".join(it for it in (module_of(function), function.type + function.trait, function.name) if it)
    found = [it for it in names if it == whole] or [it for it in names if function.type and it.endswith(f"::{path_of(function)}")]
    if not found and function.trait:
        parts = [re.escape(f"{module_of(function)}::{function.type}"), re.escape(function.trait), f"::{function.name}"]
        found = [it for it in names if re.fullmatch(r"\w*".join(parts), it)]
    return found[0] if len(found) == 1 else None


def apart(bodies):
    """The first ones, no two of which change the same function, and the others."""
    taken, chosen, later = set(), [], []
    for it in bodies:
        (later if taken & it.functions else chosen).append(it)
        taken |= it.functions if it in chosen else set()
    return chosen, later


# ---- what a check says ----


class Said:
    """What a check has said of the crate's functions."""

    def __init__(self, crate, lines):
        found = [re.match(rf"fn {crate.name}::(\S+): (.*)", it) for it in lines]
        self.lines, self.fns = lines, {it[1]: it[2] for it in found if it}

    def within(self, name):
        """The names of a function and of the closures in it."""
        return [it for it in self.fns if f"::{it}::".replace("::fn::", "::").startswith(f"::{name}::")]

    def told_of(self, function, name):
        """The lines on the function's own goals: errors in its own answers, and what isn't proved at its lines."""
        answers = re.compile(rf"(\./)?proofs/{re.escape(name.replace('::', '/'))}/\w+\.antt:\d+:\d+: error: ")
        place = re.compile(rf"note: {re.escape(function.path)}:(\d+):\d+: (it is not proved that|`search` found no proof) ")
        lines = range(function.first + 1, function.last + 2)
        return [it for it in self.lines if answers.match(it) or any(int(at[1]) in lines for at in [place.match(it)] if at)]

    def blames_others(self, names):
        """Whether it says of other functions more than that they call what isn't proved, or meets a limit of the prover's own, which says nothing."""
        own = {it for name in names for it in self.within(name)}
        for name, told in self.fns.items():
            is_well = told.startswith(("proved", "assumed")) or name in own or CALLS.search(told) and OPEN not in told
            if not is_well or told.startswith("could not tell"):
                return True
        return False

    def errs_elsewhere(self, names, limits):
        """Whether there is an error that isn't in these functions' answers, or one that is a limit of the prover's own."""
        answers = tuple(f"proofs/{name.replace('::', '/')}/" for name in names)
        errors = [it for it in self.lines if re.match(r"\S*: error|error\b|rattle: ", it)]
        return any(limits.search(it) or not it.removeprefix("./").startswith(answers) for it in errors)


def refused(body, names, said):
    """How the check says that the edit is refused; None where it doesn't."""
    weak = None
    for function in sorted(body.functions):
        told, of = said.told_of(function, names[function]), [said.fns[it] for it in said.within(names[function])]
        strong = [it for it in told if not NAMES.search(it)]
        if all(it.startswith("proved") for it in of):
            continue
        if strong:
            return f": {strong[0][:160]}"
        if told and not any(CALLS.search(it) for it in of):
            weak = weak or f" {ONLY_NAMES}: {told[0][:160]}"
    return weak


def is_named(crate, body, lines):
    """Whether it is clear by which names the check speaks of what the edit changes."""
    names = Said(crate, lines).fns
    return all(printed(it, names) for it in body.functions)


def refusals(rt, crate, bodies, lines):
    """What to say of each edit that the check refused, by its name; None where the check says of other functions what these edits can't have caused."""
    said = Said(crate, lines)
    names = {function: printed(function, said.fns) for body in bodies for function in body.functions}
    if None in names.values() or said.blames_others(names.values()) or said.errs_elsewhere(names.values(), getattr(rt, "LIMITS", LIMITS)):
        return None
    found = {body.name: refused(body, names, said) for body in bodies}
    return {name: how for name, how in found.items() if how}


# ---- groups ----


def texts_of(crate, bodies):
    """The texts of the files that these edits change, with all of them."""
    texts = {}
    for path in {path for body in bodies for path, _ in body.lines}:
        with open(f"{crate.folder}/{path}", encoding="utf-8") as it:
            lines = it.read().split("\n")
        for body in bodies:
            for (of, at), line in body.lines.items():
                if of == path:
                    lines[at] = line
        texts[path] = "\n".join(lines)
    return texts


def check(checked, crate, bodies, jobs, kept, by_module):
    """What rattle says of the crate with these edits, at the functions that they change; of one that it knows by no such name, at all of its module."""
    texts, changed = texts_of(crate, bodies), {it for body in bodies for it in body.functions}
    while True:
        paths = {module_of(it) if it in by_module else path_of(it) for it in changed}
        ran = checked(crate, texts, ["--jobs", str(jobs), *[word for it in sorted(paths) for word in ("--only", it)]], kept)
        unknown = {it for it in changed if ran.returncode == 2 and f"`{path_of(it)}`" in ran.stdout} - by_module
        by_module |= unknown
        if not unknown and (ran.returncode != -signal.SIGKILL or jobs == 1):
            return ran
        jobs = jobs if unknown else 1


def tried_in_groups(rt, checked, crate, edits, jobs):
    """How the groups say of these edits that they are refused, by the edits' names; nothing of the others."""
    bodies = [it for name, edit in edits.items() for it in [read_body(rt, crate, edit, name)] if it]
    groups, settled, by_module = [bodies] * bool(bodies), {}, set()
    room = tempfile.mkdtemp(prefix=f"rt-edits-{os.getpid()}-")
    # (rt removes these where it is ended; kit 13b has no list of them)
    getattr(rt, "SEEDS", []).append(room)
    try:
        while groups:
            chosen, later = apart(groups.pop(0))
            ran = check(checked, crate, chosen, jobs, room, by_module)
            lines, found = ran.stdout.rstrip("\n").split("\n"), None
            if rt.rtlib.STALE.search(ran.stdout):
                break
            if lines[-1].startswith("only="):
                unclear = [it for it in chosen if not is_named(crate, it, lines)]
                if unclear and len(unclear) < len(chosen):
                    groups += [[it for it in chosen if it not in unclear] + later]
                    continue
                found = refusals(rt, crate, chosen, lines) if ran.returncode == 1 else {} if ran.returncode == 0 else None
            if found is None:
                half = len(chosen) // 2
                groups += [it for it in (chosen[:half], chosen[half:], later) if it and it != chosen]
            else:
                settled.update(found)
                # (where none was refused, none will be)
                left = [it for it in chosen if found and it.name not in found] + later
                groups += [left] * bool(left)
    except OSError:
        # (another command may change what this one copies)
        pass
    finally:
        shutil.rmtree(room, ignore_errors=True)
    return {name: f"must-fail {crate.name}/{name}: refused, as it must be{why}" for name, why in settled.items()}


# ---- in rt's place ----


def only(paths):
    """The words by which rattle checks the functions of these files of a crate and those that they call; none where a file isn't a module below its root."""
    modules = [it.removeprefix("src/").removesuffix(".rt").replace("/", "::") for it in paths if it.startswith("src/")]
    if len(modules) != len(paths) or {"lib", "main"} & {*modules}:
        return []
    return [word for it in sorted({*modules}) for word in ("--only", it)]


def alone(rt):
    """rt's try of one edit: first at the functions of its files, where the crate is refused if one of these is."""
    check_of, must_fail = rt.checked, rt.must_fail
    # (kit 13b answers whether the edit is refused)
    unsure, settled = getattr(rt, "UNSURE", False), getattr(rt, "SETTLED", [True])

    def checked(crate, texts, flags, kept):
        ran = check_of(crate, texts, flags, kept)
        if "--only" in flags and ran.returncode == 1 and ran.stdout.rstrip("\n").split("\n")[-1].startswith("only="):
            ran.stdout += "logic=not-proved, of what --only names\n"
        return ran

    def tried(crate, edit, flags, kept=None):
        words = only([*(rt.read_edit(edit, crate.folder)[0] or {})])
        told = must_fail(crate, edit, [*flags, *words], kept) if words else (unsure, "")
        return told if told[0] in settled else must_fail(crate, edit, flags, kept)

    rt.checked = checked
    return tried


def in_one_task(rt):
    """Has rt try wrong bodies in groups where all of a crate are one task, as with kit 13b."""
    checked, tried_alone = rt.checked, alone(rt)

    def must_fail_all(crate, edits, flags):
        named = {os.path.basename(it): it for it in edits}
        settled = tried_in_groups(rt, checked, crate, named, 1)
        return [(True, settled[name]) if name in settled else tried_alone(crate, edit, flags) for name, edit in named.items()]

    rt.must_fail_all = must_fail_all


def in_groups(rt):
    """Has rt try wrong bodies in groups. A crate's groups are one task, under the name of rt's seed; each edit's own, after it, tries what they left."""
    add, checked, settled = rt.add_edits, rt.checked, {}
    tried_alone = alone(rt)

    def add_edits(tasks, crate, edits, first, waits, is_well, kept, start=None, in_ci=True):
        knowns = []

        def new():
            return {os.path.basename(edit): edit for edit, known in zip(edits, knowns) if not known()}

        def group(given, jobs):
            if all(given[it] for it in first):
                settled[crate.name] = tried_in_groups(rt, checked, crate, new(), jobs)

        if edits:
            tasks[crate.name, "seed"] = (first, 0, rt.need(crate), group)
        for number, edit in enumerate(edits):
            # rt's own task for a crate's only edit, which also keeps its outcome.
            own = {}
            _, known = add(own, crate, [edit], first, waits, lambda given, one=0: is_well(given, one and len(new())), kept, start, in_ci)
            knowns.append(known)
            after, lines, needs, call = own[crate.name, "edits", 0]
            tasks[crate.name, "edits", number] = ([*after, (crate.name, "seed")], lines, needs, call)
        return (
            lambda given: [given[crate.name, "edits", number][:2] for number in range(len(edits))],
            lambda: {number: told for number, known in enumerate(knowns) for told in known().values()},
        )

    def tried(crate, edit, flags, kept=None):
        said = settled.get(crate.name, {}).get(os.path.basename(edit))
        return (rt.REFUSED, said) if said else tried_alone(crate, edit, flags, kept)

    rt.add_edits, rt.must_fail = add_edits, tried
