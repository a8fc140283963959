"""The records of MRT files (RFC 6396, 8050), as RIPE RIS and RouteViews archive them: plain, gzip or bzip2, in blocks, so that memory doesn't grow with
the file.

    with mrt.Archive("updates.20261127.0000.gz") as archive:
        for record in archive:
            print(record.time, record.session.peer, record.session.peer_as, record.octets or record.change)
        print(archive.left_out)

A record is a BGP message, with its octets, or a change of a session's state. It is from BGP4MP and BGP4MP_ET, or from an entry of TABLE_DUMP_V2, which
becomes an UPDATE of its own with 4-octet AS numbers. What is left out is counted by kind. Where the file is damaged, `Damage` reports it after
the last record before that.
"""
import bz2
import collections
import contextlib
import ipaddress
import itertools
import operator
import os
import struct
import zlib

MARKER = b"\xff" * 16
UPDATE, ROUTE_REFRESH = 2, 5
HEADER_OCTETS, LONGEST_MESSAGE = 19, 4096
MP_REACH_NLRI, EXTENDED_LENGTH = 14, 0x10
NEXT_HOP_OCTETS = {1: (4,), 2: (16, 32)}

# How much is read at a time of a plain file and of a packed one, and how much bzip2 unpacks at a time. gzip unpacks an octet to 1032 at most.
PLAIN_BLOCK, PACKED_BLOCK, UNPACKED_BLOCK = 1 << 18, 1 << 15, 1 << 14

# A longer record counts as damage: that of a prefix with an entry for each of 65535 peers stays below it.
LONGEST_RECORD = 1 << 24

# The most sessions, and headers of messages, that are remembered, so that a file in which each is another needs no more memory.
MOST_KNOWN = 1 << 16

# A record's header: the time, type and subtype as one number, and the length. The time is in what is kept of it and of what follows: the second, the
# type, and the microsecond where the type has one.
HEAD = struct.Struct(">III")
TIME = struct.Struct(">IH6xI")
SECOND, KIND = struct.Struct(">I"), operator.itemgetter(5)
MILLION = 1000000
TABLE_DUMP_V2, BGP4MP, BGP4MP_ET = 13, 16, 17

ADDRESS_OCTETS = {1: 4, 2: 16}
LENGTH_AND_TYPE = struct.Struct(">HB")
ENTRY = struct.Struct(">HIH")
PATH_ENTRY = struct.Struct(">HIIH")
UPDATE_HEAD = struct.Struct(">16sHBHH")

STATES = ("0", "Idle", "Connect", "Active", "OpenSent", "OpenConfirm", "Established")

# A BGP message or a change of a session's state: the time in seconds since 1970, whose it is, and the octets of the message, or the states before and
# after.
Record = collections.namedtuple("Record", "time session octets change")


class Session:
    """Whose messages or changes of state: a peer's address and AS number, the collector's AS number (None in a table, which doesn't have it), the
    octets of AS numbers in the messages, whether their routes have path identifiers (RFC 8050), and what was recorded: messages that the collector
    received (RECEIVED) or sent (SENT), entries of a table (TABLE), or changes of state (STATE). An item of it begins with the time; `start` is where
    the message or the states begin, four octets later where there are microseconds."""

    __slots__ = ("peer", "peer_as", "local_as", "width", "paths", "what", "start", "keep")

    def __init__(self, peer, peer_as, local_as, width, paths, what, start):
        self.peer, self.peer_as, self.local_as, self.width, self.paths, self.what, self.start = peer, peer_as, local_as, width, paths, what, start
        # What adds an item to those that are kept, if that is known.
        self.keep = None


RECEIVED, SENT, TABLE, STATE = "received", "sent", "table", "state"


class Damage(Exception):
    """A file's damage: the offset of the record in which it is (in what a packed file unpacks to), and what is wrong."""

    def __init__(self, at, why):
        super().__init__(f"damaged at octet {at}: {why}")
        self.at, self.why = at, why


class Form:
    """A subtype of BGP4MP: the octets of AS numbers, whether routes have path identifiers, what it records, and where its fields begin. And what is known
    of its records: their sessions by these fields, and messages by what precedes their bodies."""

    def __init__(self, width, paths, what, begin):
        self.width, self.paths, self.what, self.begin = width, paths, what, begin
        self.fields = struct.Struct(">IIHH" if width == 4 else ">HHHH")
        self.family_at = begin + self.fields.size - 1
        self.ends = {family: begin + self.fields.size + 2 * count for family, count in ADDRESS_OCTETS.items()}
        self.sessions, self.known = {}, {}

    def session(self, record):
        """The session of a record, and where its fields end."""
        if len(record) <= self.family_at:
            raise LeftOut("cut off")
        end = self.ends.get(record[self.family_at])
        if end is None or record[self.family_at - 1] != 0:
            raise LeftOut("of another family")
        if len(record) < end:
            raise LeftOut("cut off")
        fields = record[self.begin:end]
        session = self.sessions.get(fields)
        if session is None:
            peer_as, local_as, _interface, family = self.fields.unpack_from(fields)
            peer = address(fields[self.fields.size:self.fields.size + ADDRESS_OCTETS[family]])
            session = Session(peer, peer_as, local_as, self.width, self.paths, self.what, HEAD.size + len(fields))
            keep_at_most(MOST_KNOWN, self.sessions)[fields] = session
        return session, end

    def key(self, block, at):
        """What a message is known by: the record's header after its time, and as much of what follows as precedes a body with IPv4."""
        behind = at + self.ends[1] + HEADER_OCTETS
        if self.begin == HEAD.size:
            return block[at + 4:behind]
        return block[at + 4:at + HEAD.size] + block[at + self.begin:behind]


def keep_at_most(count, known):
    """A dictionary, emptied when it reaches this number of keys."""
    if len(known) >= count:
        known.clear()
    return known


def forms(by_subtype):
    """The forms of subtypes, by type and subtype."""
    return {code(kind, subtype): Form(*form, begin) for kind, begin in ((BGP4MP, 12), (BGP4MP_ET, 16)) for subtype, form in by_subtype.items()}


def code(kind, subtype):
    """A type and a subtype as one number."""
    return kind << 16 | subtype


# Those from 8 on have path identifiers (RFC 8050, sections 3 and 4).
MESSAGES = {
    1: (2, False, RECEIVED), 4: (4, False, RECEIVED), 6: (2, False, SENT), 7: (4, False, SENT),
    8: (2, True, RECEIVED), 9: (4, True, RECEIVED), 10: (2, True, SENT), 11: (4, True, SENT),
}
STATE_CHANGES = {0: (2, False, STATE), 5: (4, False, STATE)}
PEER_INDEX_TABLE = code(TABLE_DUMP_V2, 1)
TABLES = {code(TABLE_DUMP_V2, subtype): form for subtype, form in ((2, (1, False)), (4, (2, False)), (8, (1, True)), (10, (2, True)))}
OTHER_FAMILIES = {code(TABLE_DUMP_V2, subtype) for subtype in (3, 5, 6, 9, 11, 12)}


class LeftOut(Exception):
    """Why a record, or an entry of a table, is left out."""


class Unreadable(Exception):
    """Why no more can be read of a file."""


def address(octets):
    """An address as text."""
    return str(ipaddress.ip_address(octets))


def opened(session, items):
    """What items of a session have: the form in which their times are written, in seconds since 1970, the columns of numbers in it, and
    the messages."""
    start, kinds = session.start, set(map(KIND, items))
    if BGP4MP_ET not in kinds:
        seconds = list(itertools.chain.from_iterable(map(SECOND.unpack_from, items)))
        return "%d", [seconds], list(map(operator.itemgetter(slice(start, None)), items))
    seconds, numbers, micros = zip(*map(TIME.unpack_from, items))
    if len(kinds) == 1 and max(micros) < MILLION:
        return "%d.%06d", [seconds, micros], list(map(operator.itemgetter(slice(start + 4, None)), items))
    rows = zip(seconds, numbers, micros)
    times = [f"{second + micro // MILLION}.{micro % MILLION:06}" if kind == BGP4MP_ET else str(second) for second, kind, micro in rows]
    return "%s", [times], [item[start + 4 if kind == BGP4MP_ET else start:] for item, kind in zip(items, numbers)]


def opened_one(session, item):
    """The time and the message of an item."""
    form, columns, (message,) = opened(session, [item])
    return form % tuple(column[0] for column in columns), message


def states(octets):
    """The states before and after a change, by name where they have one."""
    return tuple(STATES[number] if number < len(STATES) else str(number) for number in struct.unpack_from(">HH", octets))


def number_in(octets, at, size):
    """The number of this length at this offset."""
    if at + size > len(octets):
        raise LeftOut("cut off")
    return int.from_bytes(octets[at:at + size], "big")


def why_unread(number):
    """Why records of this type and subtype aren't read."""
    if number in OTHER_FAMILIES:
        return "of another family"
    kind, subtype = divmod(number, 1 << 16)
    # The subtype is reported only for few types, so that the number of kinds in any file is limited.
    return f"of another kind (type {kind}, subtype {subtype})" if kind in (TABLE_DUMP_V2, BGP4MP, BGP4MP_ET) else f"of another kind (type {kind})"


# ---- packed files ----


def inflated(part, block):
    """What a block of a gzip file unpacks to, up to its damage."""
    before = part.copy()
    try:
        octets = part.decompress(block)
    except zlib.error as fault:
        # Once more, octet by octet: so all that precedes the damage is kept.
        with contextlib.suppress(zlib.error):
            for at in range(len(block)):
                yield before.decompress(block[at:at + 1])
        raise Unreadable(fault) from fault
    yield octets


def bunzipped(part, block):
    """What a block of a bzip2 file unpacks to, up to its damage."""
    try:
        yield part.decompress(block, UNPACKED_BLOCK)
        while not (part.eof or part.needs_input):
            yield part.decompress(b"", UNPACKED_BLOCK)
    except OSError as fault:
        raise Unreadable(fault) from fault


def packing_of(start):
    """What makes what unpacks a part of a file that begins so, and by which call it does; None for a plain file."""
    if start[:2] == b"\x1f\x8b":
        return lambda: zlib.decompressobj(31), inflated
    # A plain file of April 2005 may begin with BZh too, but its type isn't what follows there: a block's mark, or the end's.
    if start[:3] == b"BZh" and start[4:6] in (b"1A", b"\x17r"):
        return bz2.BZ2Decompressor, bunzipped
    return None


def unpacked(blocks, make, unpack):
    """What the blocks of a packed file unpack to. Parts may follow each other, and zeros the last."""
    part = make()
    for block in blocks:
        while block:
            if part.eof:
                block = block.lstrip(b"\0")
                if not block:
                    break
                part = make()
            yield from unpack(part, block)
            block = part.unused_data
    if not part.eof:
        raise Unreadable("the packed file ends too early")


# ---- tables ----


def peers_in(body):
    """The peers of a table, in their order, each as a session without path identifiers and as one with them."""
    at = 6 + number_in(body, 4, 2)
    count, at = number_in(body, at, 2), at + 2
    for _ in range(count):
        kind = number_in(body, at, 1)
        begin = at + 5
        end = begin + (16 if kind & 1 else 4)
        width = 4 if kind & 2 else 2
        peer_as = number_in(body, end, width)
        yield tuple(Session(address(body[begin:end]), peer_as, None, 4, paths, TABLE, TIME.size) for paths in (False, True))
        at = end + width


def reach_in(attributes):
    """Where an attribute MP_REACH_NLRI begins, where its value does, and where it ends; None where none is found."""
    at = 0
    while at + 3 <= len(attributes):
        value = at + (4 if attributes[at] & EXTENDED_LENGTH else 3)
        end = value + int.from_bytes(attributes[at + 2:value], "big")
        if attributes[at + 1] == MP_REACH_NLRI:
            return at, value, end
        at = end
    return None


def next_hop_in(value):
    """The next hop of a table's MP_REACH_NLRI with its length, which is all that it has. Some collectors write the whole attribute."""
    is_whole = value[:1] == b"\0"
    at = 3 if is_whole else 0
    end = at + 1 + int.from_bytes(value[at:at + 1], "big")
    if end > len(value) or end < len(value) and not is_whole:
        raise LeftOut("with a faulty MP_REACH_NLRI")
    return value[at:end]


def announced(family, prefix, attributes):
    """The UPDATE that announces a prefix, after its path identifier if it has one, with the attributes of a table's entry: IPv6, whose next hop is in
    MP_REACH_NLRI, there, and IPv4 as NLRI."""
    reach = reach_in(attributes) if family == 2 or b"\x0e" in attributes else None
    if reach is not None:
        at, value, end = reach
        next_hop = next_hop_in(attributes[value:end])
        if len(next_hop) - 1 not in NEXT_HOP_OCTETS[family]:
            raise LeftOut("of IPv4 with an IPv6 next hop" if family == 1 else "with a faulty MP_REACH_NLRI")
        whole = bytes((0, family, 1)) + next_hop + b"\0" + prefix
        attributes = attributes[:at] + bytes((attributes[at] & ~EXTENDED_LENGTH, MP_REACH_NLRI, len(whole))) + whole + attributes[end:]
        prefix = b""
    elif family == 2:
        raise LeftOut("of IPv6 without MP_REACH_NLRI")
    length = UPDATE_HEAD.size + len(attributes) + len(prefix)
    if length > LONGEST_MESSAGE:
        raise LeftOut("above 4096 octets")
    return UPDATE_HEAD.pack(MARKER, length, UPDATE, 0, len(attributes)) + attributes + prefix


# ---- the file ----


class Archive:
    """A file of records: by turns of a loop, once. `left_out` counts by kind what isn't given, and `first_cut` is the offset of the first record
    that is cut off inside. `size` is the length of the file (0 where that can't be known), and `read` the number of octets read. `each_block`
    is called before each read."""

    def __init__(self, path, each_block=lambda: None):
        self.file = open(path, "rb")
        self.size, self.read = os.fstat(self.file.fileno()).st_size, 0
        self.each_block = each_block
        self.left_out, self.first_cut = collections.Counter(), None
        self.at, self.peers = 0, None
        self.messages, self.changes = forms(MESSAGES), forms(STATE_CHANGES)
        self.form = self.messages[code(BGP4MP, 4)]

    def __enter__(self):
        return self

    def __exit__(self, *_):
        self.file.close()

    def __iter__(self):
        for session, item in self.items():
            when, said = opened_one(session, item)
            time = float(when) if "." in when else int(when)
            yield Record(time, session, None, states(said)) if session.what == STATE else Record(time, session, said, None)

    def keep(self, list_of):
        """Appends the items of each session to the list that `list_of` answers for it: what `opened` opens, in the order of the file."""
        for session, item in self.items(self.keep_known):
            if session.keep is None:
                session.keep = list_of(session).append
            session.keep(item)

    def items(self, pass_known=lambda block, at: at):
        """Each session with an item of it, in the order of the file; but for those that `pass_known` passes over."""
        rest = b""
        try:
            for octets in self.blocks():
                block, at = rest + octets, 0
                while True:
                    at = pass_known(block, at)
                    behind = self.record_end(block, at)
                    if behind is None:
                        break
                    try:
                        yield from self.items_of(block[at:behind], at)
                    except LeftOut as why:
                        self.leave_out(str(why), at)
                    at = behind
                self.at += at
                rest = block[at:]
        except Unreadable as why:
            raise Damage(self.at, str(why)) from why
        if rest:
            self.leave_out("cut off", 0)
            raise Damage(self.at, f"the file ends inside a record, of which it has {len(rest)} octets")

    def blocks(self):
        """The octets of the file, unpacked."""
        start = self.read_some(HEAD.size)
        packing = packing_of(start)
        if packing is None:
            return self.packed_blocks(start, PLAIN_BLOCK)
        return unpacked(self.packed_blocks(start, PACKED_BLOCK), *packing)

    def packed_blocks(self, start, size):
        """The octets of the file as they are."""
        block = start
        while block:
            yield block
            block = self.read_some(size)

    def read_some(self, size):
        """The next octets of the file."""
        self.each_block()
        try:
            octets = self.file.read(size)
        except OSError as fault:
            raise Unreadable(fault) from fault
        self.read += len(octets)
        return octets

    def leave_out(self, why, at):
        """Counts what is left out of the record at this offset of the block."""
        self.left_out[why] += 1
        if why == "cut off" and self.first_cut is None:
            self.first_cut = self.at + at

    def record_end(self, block, at):
        """Where the record at this offset of a block ends; None where the block ends before."""
        if len(block) - at < HEAD.size:
            return None
        length = HEAD.unpack_from(block, at)[2]
        if length > LONGEST_RECORD:
            self.leave_out("cut off", at)
            raise Damage(self.at + at, f"a record of {length} octets")
        end = at + HEAD.size + length
        return end if end <= len(block) else None

    def keep_known(self, block, at):
        """Adds messages to those that are kept, as long as each has the form of the last one that was read, and all is known that comes before its
        body: then nothing in it has to be read. Answers where the first begins of which that isn't so.
        """
        form, end = self.form, len(block)
        known, begin, has_no_micro = form.known.get, form.begin, form.begin == HEAD.size
        end4, end6 = (form.ends[family] + HEADER_OCTETS for family in (1, 2))
        last = end - end6
        while at <= last:
            # As in `Form.key`.
            message = known(block[at + 4:at + end4] if has_no_micro else block[at + 4:at + 12] + block[at + begin:at + end4])
            if message is None:
                break
            size, keep, more = message
            if at + size > end or more is not None and block[at + end4:at + end6] != more:
                break
            keep(block[at:at + size])
            at += size
        return at

    def items_of(self, record, at):
        """What a record has, each with its session."""
        _, number, _ = HEAD.unpack_from(record)
        if number in self.messages:
            self.form = self.messages[number]
            yield self.message(self.form, record)
        elif number in self.changes:
            yield self.change(self.changes[number], record)
        elif number == PEER_INDEX_TABLE:
            self.peers = []
            for peer in peers_in(record[HEAD.size:]):
                self.peers.append(peer)
        elif number in TABLES:
            yield from self.entries(*TABLES[number], record[HEAD.size:], at)
        else:
            raise LeftOut(why_unread(number))

    @staticmethod
    def message(form, record):
        """The message of a record. What precedes its body is remembered, once it is known where the session's items are kept."""
        session, start = form.session(record)
        length = len(record) - start
        if length < HEADER_OCTETS:
            raise LeftOut("cut off")
        told, kind = LENGTH_AND_TYPE.unpack_from(record, start + len(MARKER))
        if told != length:
            raise LeftOut("cut off")
        if kind == ROUTE_REFRESH:
            raise LeftOut("of type 5")
        if length > LONGEST_MESSAGE:
            raise LeftOut("above 4096 octets")
        if session.keep is not None:
            # With IPv6, the key doesn't reach to the body.
            more = record[form.ends[1] + HEADER_OCTETS:start + HEADER_OCTETS] or None
            keep_at_most(MOST_KNOWN, form.known)[form.key(record, 0)] = len(record), session.keep, more
        return session, record

    @staticmethod
    def change(form, record):
        """The change of state in a record."""
        session, end = form.session(record)
        if len(record) < end + 4:
            raise LeftOut("cut off")
        return session, record

    def entries(self, family, paths, body, at):
        """The entries of a table for one prefix, each as an UPDATE of the time at which the collector received it; with its path identifier where it has
        one."""
        if self.peers is None:
            raise LeftOut("without a table of peers")
        bits = number_in(body, 4, 1)
        if bits > 8 * ADDRESS_OCTETS[family]:
            raise LeftOut("of a prefix that is too long")
        end = 5 + (bits + 7) // 8
        prefix, count = body[4:end], number_in(body, end, 2)
        end += 2
        for _ in range(count):
            entry = PATH_ENTRY if paths else ENTRY
            if end + entry.size > len(body):
                raise LeftOut("cut off")
            peer, second, *path, length = entry.unpack_from(body, end)
            route = b"".join(it.to_bytes(4, "big") for it in path) + prefix
            begin = end + entry.size
            end = begin + length
            if end > len(body):
                raise LeftOut("cut off")
            try:
                if peer >= len(self.peers):
                    raise LeftOut("of a peer that the table lacks")
                yield self.peers[peer][paths], TIME.pack(second, TABLE_DUMP_V2, 0) + announced(family, route, body[begin:end])
            except LeftOut as why:
                self.leave_out(str(why), at)
