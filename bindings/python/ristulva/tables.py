"""Whole streams as tables: arrays of numpy whose rows the library writes, a batch by one call, during which other threads of Python run."""

from __future__ import annotations

import ctypes
import importlib
import ipaddress
import typing
import warnings
from ctypes import c_size_t, c_uint32

from .library import BATCH, INCOMPLETE, LIBRARY, MESSAGE, OK, REFUSED, RouteCursor
from .message import PATHS_MAX, Context, FamilyNotAgreed, Incomplete, Message, Prefix, Terms, judge

if typing.TYPE_CHECKING:
    import numpy

    Rows = numpy.ndarray[typing.Any, numpy.dtype[numpy.void]]
    Array = numpy.ndarray[typing.Any, numpy.dtype[typing.Any]]

# Of each kind of rows: the call that writes them, the length of a row, and its fields, each with its form and its offset. An address is two
# numbers: so it is compared, sorted and joined. All fields but these two are in the machine's order. The octets of `path` are zeros as the library writes them.
PLACE = [("at", "u2"), ("len", "u2")]
KINDS: dict[str, tuple[str, int, dict[str, tuple[typing.Any, int]]]] = {
    "routes": ("ristulva_routes", 56, {
        "message": ("u8", 0), "origin_as": ("u4", 8), "as_path": (PLACE, 12), "as4_path": (PLACE, 16), "communities": (PLACE, 20),
        "large_communities": (PLACE, 24), "afi": ("u2", 28), "length": ("u1", 30), "high": (">u8", 31), "low": (">u8", 39), "announced": ("?", 48),
        "verdict": ("u1", 49), "has_origin_as": ("?", 50), "path": ("u4", 52),
    }),
    "path_numbers": ("ristulva_path_numbers", 16, {
        "message": ("u8", 0), "number": ("u4", 8), "segment": ("u2", 12), "set": ("?", 14),
    }),
    "communities": ("ristulva_communities_of", 16, {"message": ("u8", 0), "value": ("u4", 8)}),
    "large_communities": ("ristulva_large_communities_of", 24, {
        "message": ("u8", 0), "global": ("u4", 8), "local1": ("u4", 12), "local2": ("u4", 16),
    }),
}
By = typing.Union[Context, Terms]
# The number of octets that are searched at a time for what may be IPv6 routes.
PIECE = 1 << 18


class Reset(UserWarning):
    """A message of a stream resets the session: what follows it isn't read."""


class Batch(typing.NamedTuple):
    """The result of reading octets."""

    rows: Rows
    taken: int  # the octets of the messages that were read
    status: int  # OK, INCOMPLETE or REFUSED


def view_of(octets: typing.Any) -> Array:
    """The octets of a buffer, in place; a copy only where they aren't contiguous."""
    import numpy

    with memoryview(octets) as view:
        if not view.nbytes:
            return numpy.empty(0, "u1")
        return numpy.frombuffer(octets if view.c_contiguous else bytes(view), "u1")


def form_of(kind: str) -> typing.Any:
    """The type of the rows of a kind."""
    import numpy

    _, size, fields = KINDS[kind]
    formats, offsets = zip(*fields.values())
    return numpy.dtype({"names": list(fields), "formats": list(formats), "offsets": list(offsets), "itemsize": size})


def written(kind: str, octets: Array, context: Context, rows: Rows) -> tuple[int, int, int]:
    """One call of the library: the number of rows it wrote, of octets it consumed, and its status."""
    count, taken = c_size_t(), c_size_t()
    status: int = getattr(LIBRARY, KINDS[kind][0])(context.said(), octets.ctypes.data, octets.size, rows.ctypes.data, rows.size, count, taken)
    return count.value, taken.value, status


def room_for(rows: int, octets: int, more: int) -> int:
    """Room for the rows of some more octets, by the rows of those so far: a little more than that, and always enough for a message."""
    return BATCH + more * rows * 9 // (octets * 8 or 1)


def estimated(kind: str, octets: Array, context: Context) -> int:
    """Room for the rows of octets, estimated from the first of these; memory that isn't written isn't allocated by the machine. No octets have more rows."""
    import numpy

    if octets.size <= 16 * BATCH:
        return BATCH + octets.size
    rows, taken, status = written(kind, octets, context, numpy.empty(2 * BATCH, form_of(kind)))
    return room_for(rows, taken, octets.size if status == OK else taken)


def passed_over(octets: Array, terms: Terms) -> tuple[int, int]:
    """The length of an accepted ROUTE-REFRESH that octets begin with, and OK; of another message 0, and INCOMPLETE or REFUSED, as by the terms it is."""
    it = judge(octets, terms)
    if it is None:
        return 0, INCOMPLETE
    return (len(it), OK) if it.verdict == "refresh" else (0, REFUSED)


def read(kind: str, octets: Array, by: By, step: int = 0) -> Batch:
    """Reads messages into rows, up to one that resets the session or is incomplete. By terms an accepted ROUTE-REFRESH, at which each call ends, has no
    rows. `step` is the number of rows with room at each call; where it is 0 nearly always one call is enough between two of these."""
    import numpy

    context = by.context if isinstance(by, Terms) else by
    rows: Rows = numpy.empty(step or estimated(kind, octets, context), form_of(kind))
    count = taken = 0
    while True:
        more, further, status = written(kind, octets[taken:], context, rows[count:])
        if taken:
            rows["message"][count : count + more] += taken
        count, taken, is_full = count + more, taken + further, status == OK
        if status == REFUSED and isinstance(by, Terms):
            further, status = passed_over(octets[taken:], by)
            taken += further
        if status != OK or taken == octets.size:
            break
        if is_full or rows.size < count + BATCH:
            rows.resize(count + (step or max(room_for(count, taken, octets.size - taken), count // 4)), refcheck=False)
    rows.resize(count, refcheck=False)
    return Batch(rows, taken, status)


def hits(octets: Array) -> typing.Iterator[Array]:
    """Where the value of MP_REACH_NLRI or MP_UNREACH_NLRI for IPv6 unicast may begin (RFC 4760, sections 3 and 4), after a type 14 or 15 and a length of
    one octet or two: the offsets, some at a time."""
    import numpy

    for at in range(0, octets.size, PIECE):
        part = octets[at : at + PIECE + 2]
        found = at + numpy.flatnonzero((part[:-2] == 0) & (part[1:-1] == 2) & (part[2:] == 1))
        yield found[(octets[found - 2] | 1 == 15) | (octets[found - 3] | 1 == 15)]


def loses_ip6(octets: Array, context: Context, starts: Array) -> bool:
    """Whether an UPDATE among messages has MP_REACH_NLRI or MP_UNREACH_NLRI of IPv6 unicast, and the context doesn't. Some of the messages begin at
    `starts`, which rise; only those are judged again that may have some."""
    import numpy

    begin = end = 0
    for found in hits(octets):
        nearest = numpy.searchsorted(starts, found, "right")
        for hit, behind in zip(found.tolist(), nearest.tolist()):
            if hit < end:
                continue
            begin = end = max(end, int(starts[behind - 1]) if behind else 0)
            while end <= hit:
                begin, end = end, end + int.from_bytes(octets[end + 16 : end + 18].tobytes(), "big")
            message, cursor = octets[begin:end].tobytes(), RouteCursor()
            LIBRARY.ristulva_begin_routes(context.said(), message, len(message), cursor)
            if cursor.loses_ip6:
                return True
    return False


class Plain(typing.NamedTuple):
    """A stream without path identifiers."""

    octets: Array
    starts: Array  # the offset of each message in the stream, and that of what follows the last
    places: Array  # and those in these octets
    paths: Array  # the path identifiers of the routes


def without_paths(octets: Array, terms: Terms) -> Plain:
    """A stream without path identifiers, up to the first UPDATE that resets the session, or a header with a fault, with the octets of a message after it."""
    import numpy

    said, message, paths, count = terms.said(), ctypes.create_string_buffer(MESSAGE), (c_uint32 * PATHS_MAX)(), c_size_t()
    parts: list[bytes] = []
    starts, places, found = [0], [0], [numpy.empty(0, "u4")]
    while True:
        part = octets[starts[-1] : starts[-1] + MESSAGE].tobytes()
        if LIBRARY.ristulva_without_paths(said, part, len(part), message, MESSAGE, count) != OK:
            break
        parts.append(ctypes.string_at(message, count.value))
        starts.append(starts[-1] + int.from_bytes(part[16:18], "big"))
        places.append(places[-1] + count.value)
        if LIBRARY.ristulva_paths(said, part, len(part), paths, PATHS_MAX, count) != OK:
            break
        found.append(numpy.array(paths[: count.value], "u4"))
    parts.append(octets[starts[-1] : starts[-1] + MESSAGE].tobytes())
    return Plain(view_of(b"".join(parts)), numpy.array(starts), numpy.array(places), numpy.concatenate(found))


class Table:
    """What a stream says, as arrays, a row for each thing that is said. The field `message` of each row is the offset of its message in the stream; rows
    are in the order of the stream, so that these ascend.

    The stream's octets aren't copied: they have to stay as they are while more is read of them, and a file that is mapped can be closed once nothing
    refers to its table any more. Threads may share it."""

    def __init__(self, octets: typing.Any, context: By) -> None:
        whole = view_of(octets)
        self.terms = context if isinstance(context, Terms) else None  # None where it was read in a context
        self.context = context.context if isinstance(context, Terms) else context
        # What is read: without path identifiers, where routes have them.
        self._plain: typing.Optional[Plain] = None
        given, by = whole, context
        if self.terms is not None and self.terms.has_paths():
            self._plain, by = without_paths(whole, self.terms), self.terms.plain()
            given = self._plain.octets
        batch = read("routes", given, by)
        self._given, self._given_by = given[: batch.taken], by
        taken = batch.taken
        if self._plain is not None:
            batch.rows["path"] = self._plain.paths[: batch.rows.size]
            taken = int(self._plain.starts[self._plain.places.searchsorted(taken)])
        self.taken = taken  # the total length of the messages that were read
        self.rest = whole.size - taken  # and the number of octets after these: 0 where all was read
        # The message that resets the session, or the header with a fault; None where there is none.
        self.reset = judge(whole[taken:], context, taken) if batch.status == REFUSED else None
        self._octets, self._by, self._rows = whole, context, {"routes": self._placed(batch.rows)}

    def __repr__(self) -> str:
        return f"<ristulva.Table: {self.routes.size} routes in {self.taken} octets>"

    def _placed(self, rows: Rows) -> Rows:
        """Rows of what was read, with the offsets of their messages in the stream."""
        if self._plain is not None:
            rows["message"] = self._plain.starts[self._plain.places.searchsorted(rows["message"])]
        return rows

    def _read(self, kind: str) -> Rows:
        """The rows of a kind, which are read where that wasn't done. Threads that ask at one time may both read: all get the same rows."""
        rows = self._rows.get(kind)
        if rows is None:
            rows = self._rows.setdefault(kind, self._placed(read(kind, self._given, self._given_by).rows))
        return rows

    def _loses_ip6(self) -> bool:
        """Whether an UPDATE has attributes of IPv6 unicast, and the context has not."""
        starts = self.routes["message"].copy() if self._plain is None else self._plain.places
        return not self.context.ip6 and loses_ip6(self._given, self.context, starts)

    @property
    def routes(self) -> Rows:
        """The routes as RFC 7606 has them, in the order that `Message.routes` gives them. The fields of each:

        `message`; `afi` (1 for IPv4, 2 for IPv6) and `length` of its prefix, whose address is `high`, its upper 64 bits, and `low`, the others; an IPv4
        address is the upper half of `high`. `announced`, else it is withdrawn; `verdict`, 2 where the UPDATE is accepted, 5 where it is treated as a
        withdrawal. Of what is announced `origin_as`, its origin AS, where `has_origin_as` is set, as `Facts.origin_as`; and
        the spans of the values of `as_path`, `as4_path`, `communities` and `large_communities`, each as `at`, the offset in the message, and `len`. `path`
        is its path identifier (RFC 7911): 0 where its family has none by the terms, and in a context. Spans are then of `Message.octets`, without these."""
        return self._read("routes")

    @property
    def path_numbers(self) -> Rows:
        """The numbers of each accepted UPDATE's AS path, the nearest first, which is what AS_PATH and AS4_PATH give together (RFC 6793, section 4.2.3):
        `number`, the index `segment` of its segment in the path, from 0, and whether that is a `set`."""
        return self._read("path_numbers")

    @property
    def communities(self) -> Rows:
        """The communities of each accepted UPDATE: `value`, whose upper 16 bits are an AS number (RFC 1997)."""
        return self._read("communities")

    @property
    def large_communities(self) -> Rows:
        """The large communities of each accepted UPDATE, each once: `global`, `local1` and `local2` (RFC 8092, section 3)."""
        return self._read("large_communities")

    def message(self, place: int) -> Message:
        """The message that begins at an offset, which a row's field `message` is."""
        found = judge(self._octets[place:], self._by, int(place))
        if found is None:
            raise ValueError(f"no message begins at octet {place}")
        return found


def table(octets: typing.Any, context: By) -> Table:
    """The routes of a stream, and what is reported of them, up to the first message that resets the session. `octets` is bytes or any other buffer, as a
    mapped file; it isn't copied. It needs numpy. By Terms a ROUTE-REFRESH that its reader accepts has no rows, and what follows it is read; where routes have
    path identifiers, each message is copied without them first, which takes longer.

    Where the stream ends inside a message, a warning `Incomplete` has the number of its octets. Where a message resets the session, a warning
    `Reset` says where, and `Table.reset` is that message. Where UPDATEs have attributes of IPv6 unicast, and the context no `ip6`,
    `FamilyNotAgreed` says so."""
    try:
        import numpy as numpy
    except ImportError as error:
        raise ImportError("ristulva.table needs numpy (Debian's package python3-numpy)") from error
    found = Table(octets, context)
    if found.reset is not None:
        warnings.warn(f"the message at octet {found.taken} resets the session: {found.rest} octets aren't read", Reset, stacklevel=2)
    elif found.rest:
        warnings.warn(f"the stream ends inside a message, of which it has {found.rest} octets", Incomplete, stacklevel=2)
    if found._loses_ip6():
        warnings.warn("an UPDATE has attributes of IPv6 unicast, and its context no ip6", FamilyNotAgreed, stacklevel=2)
    return found


def prefixes(routes: Rows) -> list[Prefix]:
    """The prefixes of rows of `Table.routes`, as `Message.routes` has them."""
    four, six = ipaddress.IPv4Network, ipaddress.IPv6Network
    rows = zip(*(routes[name].tolist() for name in ("afi", "high", "low", "length")))
    return [four((high >> 32, length)) if afi == 1 else six((high << 64 | low, length)) for afi, high, low, length in rows]


def joined(routes: Rows, values: Rows) -> tuple[Array, Array]:
    """Pairs of rows that one message has, as routes and their communities: the indices into both, by routes. What has no partner is in no pair."""
    import numpy

    starts = numpy.ascontiguousarray(values["message"])
    first, behind = numpy.searchsorted(starts, routes["message"], "left"), numpy.searchsorted(starts, routes["message"], "right")
    counts = behind - first
    ours = numpy.repeat(numpy.arange(routes.size), counts)
    return ours, numpy.arange(ours.size) + numpy.repeat(first - (numpy.cumsum(counts) - counts), counts)


def columns(rows: Rows) -> dict[str, Array]:
    """The fields of rows as columns, in place; the offset and the length of a span separately. Only addresses are copied, into the machine's order."""
    found: dict[str, Array] = {}
    for name in rows.dtype.names or ():
        column = rows[name]
        if column.dtype.names:
            found.update({f"{name}_{part}": column[part] for part in column.dtype.names})
        else:
            found[name] = column if column.dtype.isnative else column.astype(column.dtype.newbyteorder("="))
    return found


def frame(rows: Rows) -> typing.Any:
    """Rows as a DataFrame of pandas, which has to be installed, over the same memory; only addresses are copied."""
    return importlib.import_module("pandas").DataFrame(columns(rows), copy=False)


def arrow(rows: Rows) -> typing.Any:
    """Rows as a Table of pyarrow, which has to be installed. In Arrow a column's values are contiguous, so that each is copied, once."""
    import numpy

    return importlib.import_module("pyarrow").table({name: numpy.ascontiguousarray(column) for name, column in columns(rows).items()})
