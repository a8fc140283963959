"""Counts by prefix what archives have, so that parts of them can be counted apart and put together: `merged` of the parts, in their order, is what
counting all of it in one go gives."""

from __future__ import annotations

import collections
import dataclasses
import pathlib
import typing
import warnings

import reading
import ristulva

# The state of a prefix at a peer is the AS path of its route; None where it has no route.
Path = typing.Optional[tuple[tuple[int, tuple[int, ...]], ...]]


@dataclasses.dataclass
class Row:
    """What a peer sent of a prefix: how often it announced and withdrew it, how often its route changed, and the states at first and at last.

    What was there before the first isn't known, so that this is no change."""

    first: Path
    last: Path
    announced: int = 0
    withdrawn: int = 0
    changes: int = 0

    def become(self, path: Path) -> None:
        """Counts whether this state is another one."""
        self.changes += path != self.last
        self.last = path

    def then(self, later: Row) -> Row:
        """The two of them, one after the other."""
        changes = self.changes + (later.first != self.last) + later.changes
        return Row(self.first, later.last, self.announced + later.announced, self.withdrawn + later.withdrawn, changes)


class Part:
    """What some archives have: rows by peer and prefix, the AS numbers that a prefix came from, the peers whose sessions fell, how many messages there
    were by verdict and what was left out, and the faults of files."""

    def __init__(self) -> None:
        self.rows: dict[str, dict[str, Row]] = {}
        self.origins: dict[str, set[int]] = {}
        self.fallen: set[str] = set()
        self.messages: collections.Counter[str] = collections.Counter()
        self.left_out: collections.Counter[str] = collections.Counter()
        self.faults: list[str] = []

    def row(self, peer: str, prefix: str, state: Path) -> Row:
        """The row of a prefix at a peer, which is new where this state is the first known of it. After a session fell there was no route."""
        rows = self.rows.setdefault(peer, {})
        if prefix not in rows:
            state = None if peer in self.fallen else state
            rows[prefix] = Row(state, state)
        return rows[prefix]

    def fall(self, peer: str) -> None:
        """A session fell, and all its routes are gone (RFC 4271, section 6)."""
        for row in self.rows.get(peer, {}).values():
            row.become(None)
        self.fallen.add(peer)

    def hear(self, peer: str, message: ristulva.Message, is_table: bool) -> None:
        """Counts a message of a peer, or a route of its table."""
        self.messages["table" if is_table else message.verdict] += 1
        routes, facts = message.routes(), message.facts()
        path = path_of(message) if any(route.announced for route in routes) else None
        for route in routes:
            prefix, state = str(route.prefix), path if route.announced else None
            row = self.row(peer, prefix, state)
            row.become(state)
            if not is_table:
                row.announced += route.announced
                row.withdrawn += not route.announced
            if route.announced and facts is not None and facts.origin_as is not None:
                self.origins.setdefault(prefix, set()).add(facts.origin_as)

    def add(self, later: Part) -> None:
        """Adds what came later, and leaves that as it is: where a worker fails, Dask may ask for the same sum once more."""
        for peer in later.fallen:
            told = later.rows.get(peer, {})
            for prefix, row in self.rows.get(peer, {}).items():
                if prefix not in told:
                    row.become(None)
        for peer, rows in later.rows.items():
            for prefix, row in rows.items():
                self.rows.setdefault(peer, {})[prefix] = self.row(peer, prefix, row.first).then(row)
        for prefix, numbers in later.origins.items():
            self.origins.setdefault(prefix, set()).update(numbers)
        self.fallen |= later.fallen
        self.messages += later.messages
        self.left_out += later.left_out
        self.faults += later.faults


def path_of(message: ristulva.Message) -> Path:
    """The AS path of what a message announces, as a value that can be compared."""
    return tuple((kind, tuple(numbers)) for kind, numbers in message.as_path() or [])


def counted(folder: str, name: str) -> Part:
    """Counts an archive. A peer is identified by the folder too, which is a collector's. Of a damaged file what comes before the damage is counted."""
    part, collector = Part(), str(pathlib.PurePath(name).parent)
    warnings.simplefilter("ignore", ristulva.Incomplete)
    try:
        with reading.mrt.Archive(pathlib.Path(folder, name)) as archive:
            try:
                for _, peer, message, is_table in reading.heard(archive):
                    if message is None:
                        part.fall(f"{collector} {peer}")
                    else:
                        part.hear(f"{collector} {peer}", message, is_table)
            finally:
                part.left_out.update(archive.left_out)
    except (reading.mrt.Damage, OSError) as fault:
        part.faults.append(f"{name}: {fault}")
    return part


def merged(parts: list[Part]) -> Part:
    """Parts put together, in their order."""
    whole = Part()
    for part in parts:
        whole.add(part)
    return whole
