"""Messages, judged in the context of their session; and UPDATEs in their one written form.

A Message keeps the octets that it was read from; what it gives is read from them on demand."""

from __future__ import annotations

import ctypes
import dataclasses
import enum
import ipaddress
import typing
import warnings
from ctypes import c_size_t, c_uint16, c_uint32

from .facts import Facts, facts_of
from .field import Field, fault_of, fault_section_of, fields_of, note_section_of
from .library import (
    DATA, HEADER, INCOMPLETE, LIBRARY, MEMORY, MESSAGE, MIXED, OK, PARTS, RANGE, REFRESH_MESSAGE, REFUSED, ROOM, STATE, UNWRITABLE, Attributes, CAttribute,
    CCapability, CCleaned, CFacts, CLargeCommunity, CNote, COpen, CPrefix, CRefresh, CRoute, CSegment, LargeCommunities, Numbers, Prefixes, RouteCursor,
    Said, SaidTerms, Segments, Span, Verdict,
)

WHYS = ("Flags", "Length", "Value", "SegmentType", "SegmentCount", "SegmentEnd", "Repeated", "External", "FourOctet", "Family", "Unneeded", "Emptied",
        "Cut", "Missing", "AsZero")
ROUTE_REFRESH = 5  # the type of the message
PATHS_MAX = 4073  # the most routes of a message
ENDS = {0: None, 1: "reset", 2: "late open", 3: "no family"}
Octets = typing.Union[bytes, bytearray, memoryview]
Prefix = typing.Union[ipaddress.IPv4Network, ipaddress.IPv6Network]

VERDICTS = {1: "open", 2: "update", 3: "notification", 4: "keepalive", 5: "withdraw", 6: "reset", 7: "refresh"}


@dataclasses.dataclass(frozen=True)
class Context:
    """What both speakers of a session agreed on. Of each value its truth counts, as in an `if`: 256 is true, and so is "no"."""

    internal: bool = False
    as4: bool = False
    ip4: bool = False
    ip6: bool = False

    def __post_init__(self) -> None:
        # A number that C has no room for would lose its highest octets.
        for field in dataclasses.fields(self):
            object.__setattr__(self, field.name, bool(getattr(self, field.name)))

    def said(self) -> Said:
        return Said(self.internal, self.as4, self.ip4, self.ip6)


class Refreshes(enum.IntEnum):
    """Which ROUTE-REFRESH a reader accepts."""

    NONE = 0  # none: it doesn't offer it (capability 2)
    PLAIN = 1  # requests (RFC 2918)
    ENHANCED = 2  # and the marks where a refresh begins and ends, which both offer (capability 70; RFC 7313)


class Subtype(enum.IntEnum):
    """The subtypes of a ROUTE-REFRESH. Each other one has no effect (RFC 7313, section 5)."""

    REQUEST = 0  # the routes of the family are asked for (RFC 2918, section 3)
    BEGIN = 1  # a refresh begins (BoRR; RFC 7313, section 3.2)
    END = 2  # a refresh ends (EoRR)


@dataclasses.dataclass(frozen=True)
class Terms:
    """What both speakers agreed on for one direction of their session, from a sender to a reader: the sender's messages are read by it. `refresh` is one
    of Refreshes; of each other value but the context its truth counts. A message has at most MESSAGE octets, whatever is agreed on."""

    context: Context = Context()
    refresh: int = Refreshes.NONE
    long_messages: bool = False  # the reader accepts messages of up to 65535 octets (capability 6; RFC 8654)
    long_back: bool = False  # the sender does: NOTIFICATIONs to it may be that long
    paths4: bool = False  # IPv4 unicast routes have path identifiers (capability 69; RFC 7911)
    paths6: bool = False  # IPv6 unicast routes have path identifiers
    hop6: bool = False  # IPv4 unicast routes may have an IPv6 next hop (capability 5; RFC 8950)

    def __post_init__(self) -> None:
        object.__setattr__(self, "refresh", Refreshes(self.refresh))
        for name in ("long_messages", "long_back", "paths4", "paths6", "hop6"):
            object.__setattr__(self, name, bool(getattr(self, name)))

    def said(self) -> SaidTerms:
        return SaidTerms(self.context.said(), self.refresh, self.long_messages, self.long_back, self.paths4, self.paths6, self.hop6)

    def has_paths(self) -> bool:
        """Whether routes have path identifiers."""
        return self.paths4 or self.paths6

    def plain(self) -> Terms:
        """The same, but for path identifiers, which no route has: by it a message is read without them."""
        return dataclasses.replace(self, paths4=False, paths6=False)


class Refused(Exception):
    """An UPDATE that isn't accepted whole, or that can't be written."""


class WrongState(Exception):
    """The session isn't in a state for this."""


class Incomplete(UserWarning):
    """A stream ends inside a message."""


class FamilyNotAgreed(UserWarning):
    """A family isn't in use: an UPDATE has attributes of IPv6 unicast, and its context has no `ip6`, so that their routes, if there are any, aren't
    given; or the peer of a session offers a family that its Config doesn't."""


REFUSALS = {RANGE: "too long a body", REFUSED: "not accepted whole", MIXED: "routes of several kinds", UNWRITABLE: "can't be written"}


def check(status: int) -> None:
    """Raises the error for the status of a call that writes an UPDATE, where it isn't OK."""
    if status == MEMORY:
        raise MemoryError
    if status == STATE:
        raise WrongState("not Established")
    if status != OK:
        raise Refused(REFUSALS[status])


@dataclasses.dataclass(frozen=True)
class Attribute:
    """A path attribute as it lies in its field."""

    flags: int
    kind: int
    value: bytes
    span: Span = dataclasses.field(repr=False, compare=False)


@dataclasses.dataclass(frozen=True)
class Route:
    """A route that an UPDATE announces, or else withdraws."""

    prefix: Prefix
    announced: bool
    path: typing.Optional[int] = None  # its path identifier (RFC 7911); None where its family has none, and in a context


@dataclasses.dataclass(frozen=True)
class Open:
    """What an OPEN says (RFC 4271, section 4.2)."""

    as_number: int  # that of the first capability for AS numbers of four octets, else as_field (RFC 6793, section 4.1)
    as_field: int  # My Autonomous System
    hold_time: int  # in seconds: 0 for none
    identifier: ipaddress.IPv4Address
    as4: bool  # whether it offers AS numbers of four octets, and unicast routes of IPv4 and of IPv6
    ip4: bool
    ip6: bool
    capabilities: list[tuple[int, bytes]]  # each its code and the octets of its value, in their order (RFC 5492, section 4)


@dataclasses.dataclass(frozen=True)
class Refresh:
    """What a ROUTE-REFRESH says (RFC 2918, section 3; RFC 7313, section 3.2)."""

    afi: int  # the address family
    safi: int  # the subsequent address family
    subtype: int  # one of Subtype, or another number; always REQUEST where only requests are accepted, since the octet is reserved there
    rest: bytes  # what follows the four octets, without effect: entries of route filters (RFC 5291, section 4)


@dataclasses.dataclass(frozen=True)
class Cleaned:
    """The result of cleaning a message."""

    octets: bytes  # what is passed on of it, a whole message in its one written form; none where the stream ends
    ends: typing.Optional[str]  # why the cleaned stream ends before it, one of ENDS; None where it is passed on
    discarded: int  # the number of attributes of an accepted UPDATE that are discarded, each with a note
    left_out: int  # the number of others left out, by their types
    capabilities: int  # the number of capabilities of an OPEN left out


Out = typing.TypeVar("Out")


def each(call: str, octets: bytes, cursor: ctypes.Structure, out: Out) -> typing.Iterator[Out]:
    """What a cursor gives, in sequence: always the same object, written again."""
    step, size = getattr(LIBRARY, f"ristulva_{call}"), len(octets)
    while step(octets, size, cursor, out) == 0:
        yield out


def prefix_of(it: CPrefix) -> Prefix:
    address = bytes(it.addr)[: 4 if it.afi == 1 else 16]
    return ipaddress.ip_network((address, it.len))


class Message:
    """A message that was judged, or a header with a fault. Two are equal where their octets, contexts or terms, offsets and verdicts are.

    `terms` is None where it was judged in a context. A ROUTE-REFRESH, which only terms have, has neither fields nor a section: these calls, and `clean`,
    raise ValueError.

    By terms with path identifiers, `octets` is the message without them, which all else is of, and `received` that with them; else both are the same."""

    def __init__(
        self, octets: bytes, context: typing.Union[Context, Terms], place: int, verdict: Verdict, data: bytes, received: typing.Optional[bytes] = None,
    ) -> None:
        self.terms = context if isinstance(context, Terms) else None
        self.context = context.context if isinstance(context, Terms) else context
        self.octets, self.place = octets, place
        self.received = octets if received is None else received
        self.found, self.data = verdict, data

    def __repr__(self) -> str:
        return f"<ristulva.Message: {self.verdict}, {len(self.octets)} octets at {self.place}>"

    def _known(self) -> tuple[typing.Any, ...]:
        """All that makes it what it is."""
        return self.octets, self.terms or self.context, self.place, bytes(self.found), self.data, self.received

    def __eq__(self, other: object) -> bool:
        if not isinstance(other, Message):
            return NotImplemented
        return self._known() == other._known()

    def __hash__(self) -> int:
        return hash((self.octets, self.context, self.place))

    def __len__(self) -> int:
        """Its length in octets: that of a header, where that has a fault."""
        return len(self.octets)

    def __reduce__(self) -> tuple[typing.Any, ...]:
        return restored, self._known()

    @property
    def verdict(self) -> str:
        """One of VERDICTS."""
        return VERDICTS[self.found.verdict]

    @property
    def notification(self) -> typing.Optional[tuple[int, int, bytes]]:
        """Code, subcode and data of the NOTIFICATION that was received, or that ends the session; else None."""
        said = self.verdict in ("notification", "reset")
        return (self.found.code, self.found.subcode, self.data) if said else None

    def _is_refresh(self) -> bool:
        """Whether it is a ROUTE-REFRESH, accepted or not: in a context that is a bad message type."""
        return self.terms is not None and self.found.kind == ROUTE_REFRESH

    def _said(self) -> Said:
        """The context, for a call that would report a ROUTE-REFRESH as a bad message type."""
        if self._is_refresh():
            raise ValueError("a ROUTE-REFRESH has neither fields nor a section, and isn't cleaned")
        return self.context.said()

    def __str__(self) -> str:
        """The lines that `bgp show` prints."""
        call, by = (LIBRARY.ristulva_text, self.context.said()) if self.terms is None else (LIBRARY.ristulva_text_in, self.terms.plain().said())
        room, written = 4096, c_size_t()
        while True:
            text = ctypes.create_string_buffer(room)
            status = call(by, self.place, self.octets, len(self.octets), text, room, written)
            if status == MEMORY:
                raise MemoryError
            if status != ROOM:
                return ctypes.string_at(text, written.value).decode("ascii")
            room = written.value

    def open(self) -> typing.Optional[Open]:
        """What an accepted OPEN says; None for any other message."""
        it = COpen()
        if LIBRARY.ristulva_open(self.octets, len(self.octets), it) != 0:
            return None
        found = each("next_capability", self.octets, it.capabilities, CCapability())
        capabilities = [(one.code, self.octets[one.value.at : one.value.at + one.value.len]) for one in found]
        return Open(it.as_number, it.as_field, it.hold, ipaddress.IPv4Address(bytes(it.id)), bool(it.as4), bool(it.ip4), bool(it.ip6), capabilities)

    def refresh(self) -> typing.Optional[Refresh]:
        """What an accepted ROUTE-REFRESH says; None for any other message."""
        it = CRefresh()
        if self.terms is None or LIBRARY.ristulva_refresh_in(self.terms.plain().said(), self.octets, len(self.octets), it) != OK:
            return None
        return Refresh(it.afi, it.safi, it.subtype, self.octets[it.rest.at : it.rest.at + it.rest.len])

    def notes(self) -> list[tuple[int, int, str]]:
        """What RFC 7606 found: of each note the attribute's offset in the message (0 where it is missing), its type, and one of WHYS."""
        notes, count = (CNote * 8)(), c_size_t()
        while LIBRARY.ristulva_notes(self.context.said(), self.octets, len(self.octets), notes, len(notes), count) == ROOM:
            notes = (CNote * count.value)()
        return [(note.at, note.kind, WHYS[note.why - 1]) for note in notes[: count.value]]

    def fields(self) -> list[Field]:
        """All its fields, in their order: their octets joined are the message, whatever it is. Where it is accepted without a note none is "Unread"."""
        return fields_of(self.octets, self._said())

    def fault(self) -> typing.Optional[tuple[int, int]]:
        """For which of its octets the session ends: their offset in the message, and their number. None where it isn't a "reset"."""
        return fault_of(self.octets, self._said())

    def fault_section(self) -> str:
        """The section of an RFC by which the session ends, as `bgp explain` prints it; "own rule" where no RFC has the rule. Empty where it isn't a "reset"."""
        return fault_section_of(self.octets, self._said())

    def clean(self, first: bool = False, types: typing.Iterable[int] = ()) -> Cleaned:
        """The octets of what may be passed on of it to a receiver, which learns from it what RFC 7606 has the receiver of the message learn: of one message,
        or of up to three of an UPDATE: withdrawn routes, those of NLRI, those of MP_REACH_NLRI.

        An OPEN is passed on with the first capability of each kind for IPv4 unicast, IPv6 unicast and 4-octet AS numbers, and no others. An UPDATE
        that is accepted is passed on without what is discarded, and without attributes of unrecognised types that are among `types`; one that is treated as
        a withdrawal as an UPDATE that withdraws its routes. IPv4 routes are passed on in Withdrawn Routes and NLRI. Where an UPDATE has no routes, a
        KEEPALIVE is passed on, unless it is an End-of-RIB. `first` is whether the message is the first one of its stream. Of a message with `ends`, and of
        all after it, nothing is to be passed on."""
        left_out = bytes(iter(types))
        message, written, told = ctypes.create_string_buffer(PARTS), c_size_t(), CCleaned()
        check(LIBRARY.ristulva_clean(
            self._said(), left_out, len(left_out), bool(first), self.octets, len(self.octets), message, PARTS, written, told))
        return Cleaned(ctypes.string_at(message, written.value), ENDS[told.ends], told.discarded, told.left_out, told.capabilities)

    def attributes(self) -> list[Attribute]:
        """The attributes of an UPDATE, kept or not, in their order."""
        return [*self._attributes()]

    def _attributes(self) -> typing.Iterator[Attribute]:
        field = self.found.attributes
        for it in each("next_attribute", self.octets, Attributes(field.at, field.at + field.len), CAttribute()):
            value = Span(it.value.at, it.value.len)
            yield Attribute(it.flags, it.kind, self.octets[value.at : value.at + value.len], value)

    def first(self, kind: int) -> typing.Optional[Attribute]:
        """The first attribute of a type, which decides; None where there is none."""
        return next((it for it in self._attributes() if it.kind == kind), None)

    def prefixes(self, cursor: Prefixes) -> typing.Iterator[Prefix]:
        for it in each("next_prefix", self.octets, cursor, CPrefix()):
            yield prefix_of(it)

    def field(self, span: Span) -> typing.Iterator[Prefix]:
        return self.prefixes(Prefixes(span.at, span.at + span.len, 1))

    def is_in_use(self, afi: int) -> bool:
        return self.context.ip4 if afi == 1 else self.context.ip6

    def announced(self) -> list[Prefix]:
        """The prefixes of MP_REACH_NLRI and then of the NLRI field, also where the verdict is "withdraw" and they are to be withdrawn: see `routes`."""
        return [*self._announced()]

    def _announced(self) -> typing.Iterator[Prefix]:
        reach, hop, cursor = self.first(14), Span(), Prefixes()
        if reach and LIBRARY.ristulva_reached(self.octets, len(self.octets), reach.span, hop, cursor) == 0 and self.is_in_use(cursor.afi):
            yield from self.prefixes(cursor)
        yield from self.field(self.found.nlri)

    def withdrawn(self) -> list[Prefix]:
        """The prefixes of Withdrawn Routes and then of MP_UNREACH_NLRI."""
        return [*self._withdrawn()]

    def _withdrawn(self) -> typing.Iterator[Prefix]:
        yield from self.field(self.found.withdrawn)
        unreach, cursor = self.first(15), Prefixes()
        if unreach and LIBRARY.ristulva_unreached(self.octets, len(self.octets), unreach.span, cursor) == 0 and self.is_in_use(cursor.afi):
            yield from self.prefixes(cursor)

    def routes(self) -> list[Route]:
        """Its routes as RFC 7606 has them: those that it withdraws, then those that it announces; an UPDATE that is treated as a withdrawal announces
        none, and withdraws all. Of other messages there are none.

        Where it has MP_REACH_NLRI or MP_UNREACH_NLRI of IPv6 unicast, and its context doesn't, a warning `FamilyNotAgreed` says so, also where that has
        no routes (an End-of-RIB)."""
        cursor = RouteCursor()
        if LIBRARY.ristulva_begin_routes(self.context.said(), self.octets, len(self.octets), cursor) != OK:
            return []
        if cursor.loses_ip6:
            warnings.warn("an UPDATE has attributes of IPv6 unicast, and its context no ip6", FamilyNotAgreed, stacklevel=2)
        found = [Route(prefix_of(it.prefix), bool(it.announced)) for it in each("next_route", self.octets, cursor, CRoute())]
        return found if self.terms is None or not self.terms.has_paths() else self._identified(found, self.terms)

    def _identified(self, routes: list[Route], terms: Terms) -> list[Route]:
        """Its routes with their path identifiers, in the families that have them."""
        paths, count = (c_uint32 * PATHS_MAX)(), c_size_t()
        LIBRARY.ristulva_paths(terms.said(), self.received, len(self.received), paths, PATHS_MAX, count)
        has = {4: terms.paths4, 6: terms.paths6}
        return [dataclasses.replace(it, path=path) if has[it.prefix.version] else it for it, path in zip(routes, paths[: count.value])]

    def facts(self) -> typing.Optional[Facts]:
        """Common attributes of an UPDATE, of those that are kept; None where it isn't accepted, and for other messages."""
        it = CFacts()
        if LIBRARY.ristulva_facts(self.context.said(), self.octets, len(self.octets), it) != OK:
            return None
        return facts_of(it)

    def as_path(self) -> typing.Optional[list[tuple[int, list[int]]]]:
        """The segments of AS_PATH, each its type and its AS numbers; None where there is no AS_PATH."""
        path = self.first(2)
        if path is None:
            return None
        at, end = path.span.at, path.span.at + path.span.len
        segments = each("next_segment", self.octets, Segments(at, end, self.context.as4, 0), CSegment())
        return [(it.kind, self.numbers(it.numbers, 4 if self.context.as4 else 2)) for it in segments]

    def numbers(self, span: Span, width: int) -> list[int]:
        return [it.value for it in each("next_number", self.octets, Numbers(span.at, span.at + span.len, width), c_uint32())]

    def communities(self) -> list[int]:
        """The numbers of COMMUNITIES."""
        value = self.first(8)
        return self.numbers(value.span, 4) if value else []

    def large_communities(self) -> list[tuple[int, int, int]]:
        """The large communities of LARGE_COMMUNITY, each three numbers, and each only where it occurs first (RFC 8092, section 3)."""
        value = self.first(32)
        if value is None:
            return []
        at, end = value.span.at, value.span.at + value.span.len
        return [(it.numbers[0], it.numbers[1], it.numbers[2]) for it in each("next_large_community", self.octets, LargeCommunities(at, at, end), CLargeCommunity())]


def restored(octets: bytes, context: typing.Union[Context, Terms], place: int, found: bytes, data: bytes, received: typing.Optional[bytes] = None) -> Message:
    """A message as it was pickled or copied."""
    return Message(octets, context, place, Verdict.from_buffer_copy(found), data, received)


def in_octets(buffer: typing.Any) -> typing.Any:
    """A buffer whose slices count octets: itself, or a copy where it has wider elements, as array("H"), or rows."""
    with memoryview(buffer) as view:
        return buffer if view.itemsize == 1 and view.ndim == 1 else bytes(view)


def part(octets: typing.Any, at: int) -> bytes:
    """As many octets from an offset on as a message may have, copied: nothing holds the caller's buffer then, and it may be changed."""
    return bytes(memoryview(octets)[at : at + MESSAGE])


def judged(octets: bytes, context: typing.Union[Context, Terms], place: int) -> typing.Optional[Message]:
    """The message that some bytes begin with, or None where they are less than one."""
    if isinstance(context, Terms) and context.has_paths():
        return judged_without_paths(octets, context, place)
    verdict, data = Verdict(), ctypes.create_string_buffer(DATA)
    call = LIBRARY.ristulva_judge_in if isinstance(context, Terms) else LIBRARY.ristulva_judge
    status = call(context.said(), octets, len(octets), data, DATA, verdict)
    if status == INCOMPLETE:
        return None
    return Message(octets[: verdict.len or HEADER], context, place, verdict, ctypes.string_at(data, verdict.data_len))


def judged_without_paths(octets: bytes, terms: Terms, place: int) -> typing.Optional[Message]:
    """The message that some bytes begin with, judged without its path identifiers, or None where they are less than one."""
    message, written = ctypes.create_string_buffer(MESSAGE), c_size_t()
    status = LIBRARY.ristulva_without_paths(terms.said(), octets, len(octets), message, MESSAGE, written)
    if status == INCOMPLETE:
        return None
    # A header with a fault is judged as it is.
    plain, length = (ctypes.string_at(message, written.value), int.from_bytes(octets[16:18], "big")) if status == OK else (octets, HEADER)
    found = judged(plain, terms.plain(), place)
    if found is None:
        return None
    data = received_data(octets, terms) if found.verdict == "reset" else found.data
    return Message(found.octets, terms, place, found.found, data, octets[:length])


def received_data(octets: bytes, terms: Terms) -> bytes:
    """The data of the NOTIFICATION that answers the message that some bytes begin with: an attribute as it was received."""
    verdict, data = Verdict(), ctypes.create_string_buffer(DATA)
    LIBRARY.ristulva_judge_paths(terms.said(), octets, len(octets), data, DATA, verdict)
    return ctypes.string_at(data, verdict.data_len)


def judge(octets: typing.Any, context: typing.Union[Context, Terms], place: int = 0) -> typing.Optional[Message]:
    """The message that octets begin with, or None where they are less than one. Of a header with a fault it has the 19 octets of the header.

    `octets` is bytes or another buffer, which is read octet by octet, whatever its elements are. By Terms a ROUTE-REFRESH is a message where its reader
    offers it, and a message whose routes have path identifiers is judged without them: `Route.path` is that of a route. An attribute that is data of a
    NOTIFICATION is as it was received."""
    return judged(part(in_octets(octets), 0), context, place)


def messages(octets: typing.Any, context: typing.Union[Context, Terms]) -> typing.Iterator[Message]:
    """The messages of a stream, up to the first that ends the session. `octets` is a buffer, and a context or terms are as for `judge`.

    Where the stream ends inside a message, a warning `Incomplete` has the number of its octets."""
    octets, place = in_octets(octets), 0
    while (message := judged(part(octets, place), context, place)) is not None:
        yield message
        if message.verdict == "reset":
            return
        place += len(message.received)
    rest = len(octets) - place
    if rest:
        warnings.warn(f"the stream ends inside a message, of which it has {rest} octets", Incomplete, stacklevel=2)


def note_section(kind: int, why: str) -> str:
    """The section of an RFC by which a note on an attribute of a type is required, one of WHYS, as `bgp explain` prints it."""
    return note_section_of(kind, WHYS.index(why) + 1)


def agree(ours: typing.Any, theirs: typing.Any) -> typing.Optional[tuple[Context, int]]:
    """What two speakers agree on, given octets that begin with the OPEN of each: the context of their session, and its Hold Time in seconds, 0 for
    none; as `bgp show --opens` finds it. None where one of them isn't an accepted OPEN. Neither is refused for what it says. A direction for which both
    agree on path identifiers (capability 69; RFC 7911) is read by the terms of `terms_of`."""
    said, hold = Said(), c_uint16()
    one, other = part(in_octets(ours), 0), part(in_octets(theirs), 0)
    if LIBRARY.ristulva_agree(one, len(one), other, len(other), said, hold) != OK:
        return None
    return Context(said.internal, said.as4, said.ip4, said.ip6), hold.value


def terms_of(reader: typing.Any, sender: typing.Any) -> typing.Optional[tuple[Terms, int]]:
    """What holds for the messages that a reader receives from a sender, given octets that begin with the OPEN of each: the terms, and the Hold Time in
    seconds, 0 for none. None where one of them isn't an accepted OPEN. Neither is refused for what it says."""
    said, hold = SaidTerms(), c_uint16()
    one, other = part(in_octets(reader), 0), part(in_octets(sender), 0)
    if LIBRARY.ristulva_terms_of(one, len(one), other, len(other), said, hold) != OK:
        return None
    context = Context(said.context.internal, said.context.as4, said.context.ip4, said.context.ip6)
    return Terms(context, said.refresh, said.long_messages, said.long_back, said.paths4, said.paths6, said.hop6), hold.value


def directions(ours: typing.Any, theirs: typing.Any) -> tuple[typing.Iterator[Message], typing.Iterator[Message]]:
    """The messages of both directions of a session, each as `messages` gives them, in the context that their first OPENs agree on.

    ValueError: one of them doesn't begin with an OPEN that is accepted."""
    agreed = agree(ours, theirs)
    if agreed is None:
        raise ValueError("no OPEN to agree with")
    return messages(ours, agreed[0]), messages(theirs, agreed[0])


def rewritten(call: str, octets: Octets, context: Context) -> bytes:
    body = bytes(memoryview(octets))
    message, written = ctypes.create_string_buffer(MESSAGE), c_size_t()
    check(getattr(LIBRARY, f"ristulva_{call}")(context.said(), body, len(body), message, MESSAGE, written))
    return ctypes.string_at(message, written.value)


def encode(body: Octets, context: Context) -> bytes:
    """The message of the UPDATE that a body is, in its one written form."""
    return rewritten("encode", body, context)


def narrow(body: Octets, context: Context) -> bytes:
    """The same for a speaker with AS numbers of two octets."""
    return rewritten("narrow", body, context)


def reconcile(body: Octets, context: Context) -> bytes:
    """The UPDATE of a session with AS numbers of two octets, as speakers with four see it."""
    return rewritten("reconcile", body, context)


def encode_refresh(afi: int, safi: int, subtype: int = Subtype.REQUEST) -> bytes:
    """The message of a ROUTE-REFRESH for a family. ValueError: a number has no room in its field."""
    if not (0 <= afi <= 0xFFFF and 0 <= safi <= 0xFF and 0 <= subtype <= 0xFF):
        raise ValueError("an AFI has two octets, a SAFI and a subtype have one")
    message, written = ctypes.create_string_buffer(REFRESH_MESSAGE), c_size_t()
    LIBRARY.ristulva_encode_refresh(afi, safi, subtype, message, REFRESH_MESSAGE, written)
    return ctypes.string_at(message, written.value)
