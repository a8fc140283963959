#!/usr/bin/env python3
"""Makes a folder of MRT archives of two collectors, always the same for the same arguments, and computes beside that what they have: from the events by
which they are made, and never by reading them.

    make.py FOLDER FILES UPDATES     for each collector this number of files, of this number of updates each

Each collector has a table dump and then files of updates: plain, gzip and bzip2 in turn. Messages have faults now and then, sessions fall and come up
again, and one peer has 2-octet AS numbers."""
import bz2
import collections
import gzip
import os
import random
import struct
import sys

MARKER = b"\xff" * 16
COLLECTOR_AS, BEGIN, TRANS = 64500, 1700000000, 23456
TABLE, BGP4MP, BGP4MP_ET = 13, 16, 17

Peer = collections.namedtuple("Peer", "address as_number width")
PEERS = [
    Peer("c0000201", 65001, 4), Peer("c0000202", 65002, 4), Peer("20010db8" + "00" * 11 + "03", 200003, 4), Peer("c0000204", 65004, 2),
]
COLLECTORS = ("rrc00", "rrc01")


def attribute(flags, kind, value):
    """A path attribute."""
    length = struct.pack(">H", len(value)) if len(value) > 255 else bytes([len(value)])
    return bytes([flags | (16 if len(value) > 255 else 0), kind]) + length + value


def message(withdrawn, attributes, nlri):
    """An UPDATE."""
    body = struct.pack(">H", len(withdrawn)) + withdrawn + struct.pack(">H", len(attributes)) + attributes + nlri
    return MARKER + struct.pack(">HB", 19 + len(body), 2) + body


def record(second, kind, subtype, body, micros=None):
    """A record of an MRT file."""
    if micros is not None:
        body = struct.pack(">I", micros) + body
    return struct.pack(">IHHI", second, kind, subtype, len(body)) + body


def text_of(prefix):
    """A prefix, its length and its octets, as text."""
    length, octets = prefix
    if len(octets) <= 3:
        return ".".join(str(it) for it in octets + bytes(4 - len(octets))) + f"/{length}"
    groups = [f"{octets[at] << 8 | octets[at + 1]:x}" for at in range(0, 6, 2)]
    return ":".join(groups).removesuffix(":0") + f"::/{length}"


def on_wire(prefixes):
    """Prefixes as in a message."""
    return b"".join(bytes([length]) + octets for length, octets in prefixes)


PREFIXES4 = [(24, bytes([100, n // 256, n % 256])) for n in range(300)]
PREFIXES6 = [(48, bytes.fromhex(f"20010db8{n:04x}")) for n in range(1, 80)]


def numbers(path, width):
    """The octets of AS numbers; those above two octets are AS_TRANS there (RFC 6793, section 4.2.2)."""
    return b"".join(number.to_bytes(width, "big") if number < 1 << 8 * width else struct.pack(">H", TRANS) for number in path)


def path_value(path, width, with_set):
    """The value of AS_PATH or AS4_PATH: a sequence, of which the last two may be a set."""
    body, last = (path[:-2], path[-2:]) if with_set else (path, ())
    return bytes([2, len(body)]) + numbers(body, width) + (bytes([1, 2]) + numbers(last, width) if last else b"")


class Truth:
    """What a reader has to find."""

    def __init__(self):
        self.states, self.fallen = {}, set()
        self.origins = collections.defaultdict(set)
        self.changes, self.announced, self.withdrawn = collections.Counter(), collections.Counter(), collections.Counter()
        self.messages, self.faults = collections.Counter(), collections.Counter()
        self.lengths = {4: collections.Counter(), 6: collections.Counter()}

    def become(self, peer, prefix, state):
        """A peer's state of a prefix: a path, or None where it has no route."""
        key = peer, prefix
        if key not in self.states:
            self.states[key] = None if peer in self.fallen else state
        self.changes[prefix] += self.states[key] != state
        self.states[key] = state

    def announce(self, peer, prefix, path, with_set, is_table=False):
        self.become(peer, prefix, (path, with_set))
        if not is_table:
            self.announced[prefix] += 1
            self.lengths[4 if len(prefix[1]) < 4 else 6][len(path) - with_set] += 1
        if not with_set:
            self.origins[prefix].add(path[-1])

    def withdraw(self, peer, prefix):
        self.become(peer, prefix, None)
        self.withdrawn[prefix] += 1

    def fall(self, peer):
        for one, prefix in [key for key in self.states if key[0] == peer]:
            self.become(one, prefix, None)
        self.fallen.add(peer)

    def rows(self):
        """The rows of prefixes.csv, without an order."""
        have = collections.Counter(prefix for (_, prefix), state in self.states.items() if state is not None)
        found = {prefix for _, prefix in self.states}
        return {text_of(it): (have[it], len(self.origins[it]), self.changes[it], self.announced[it], self.withdrawn[it]) for it in found}

    def pairs(self):
        """The rows of origins.csv."""
        return {(text_of(prefix), number) for prefix, found in self.origins.items() for number in found}


class Maker:
    """Makes the files of a collector, one after the other."""

    def __init__(self, collector, seed, truth):
        self.collector, self.chance, self.truth = collector, random.Random(seed), truth
        self.second = BEGIN

    def path(self, peer, prefix):
        """An AS path that ends in one of two AS numbers of the prefix."""
        last = 64600 + sum(prefix[1]) % 100 + (100000 if self.chance.random() < 0.1 else 0)
        hops = self.chance.choice((0, 1, 1, 2, 2, 2, 3, 3, 4, 6, 9))
        return (peer.as_number, *(self.chance.choice((3356, 1299, 174, 2914, 6939, 199999)) for _ in range(hops)), last)

    def paths(self, peer, path, with_set):
        """The attributes for a path."""
        found = attribute(0x40, 2, path_value(path, peer.width, with_set))
        if peer.width == 2 and max(path) > 65535:
            found += attribute(0xC0, 17, path_value(path, 4, with_set))
        return found

    def announcing(self, peer, prefixes, path, with_set):
        """The octets that announce prefixes, each an own piece: ORIGIN, the path, the next hop, more, NLRI."""
        six = len(prefixes[0][1]) > 4
        if six:
            hop = attribute(0x80, 14, b"\0\2\1\x10" + bytes.fromhex("20010db8" + "00" * 11 + "09") + b"\0" + on_wire(prefixes))
        else:
            hop = attribute(0x40, 3, bytes([192, 0, 2, 9]))
        return [attribute(0x40, 1, b"\0"), self.paths(peer, path, with_set), hop, b"", b"" if six else on_wire(prefixes)]

    def spoilt(self, peer, pieces):
        """Pieces with a fault, and the verdict on them."""
        kind = self.chance.choice(("origin", "repeated", "aggregator", "missing", "community", "local", "atomic", "path", "reset"))
        self.truth.faults[kind] += 1
        if kind == "origin":
            return [attribute(0x40, 1, b"\3"), *pieces[1:]], "withdraw"
        if kind == "missing":
            return [b"", *pieces[1:]], "withdraw"
        if kind == "path":
            return [pieces[0], attribute(0x40, 2, b"\2\0"), *pieces[2:]], "withdraw"
        if kind == "reset":
            return [attribute(0x40, 99, b""), *pieces[1:]], "reset"
        more = {
            "community": attribute(0xC0, 8, b"\0"), "repeated": attribute(0x40, 1, b"\0"), "aggregator": attribute(0xC0, 7, b"\0"),
            "local": attribute(0x40, 5, bytes(4)), "atomic": attribute(0x40, 6, b"\0"),
        }
        return [*pieces[:3], more[kind], pieces[4]], "withdraw" if kind == "community" else "update"

    def update(self, peer):
        """An UPDATE of a peer. Of AS numbers of two octets a fault would leave AS4_PATH unread, so they have none."""
        key, six = (self.collector, peer), self.chance.random() < 0.25
        prefixes = self.chance.sample(PREFIXES6 if six else PREFIXES4, self.chance.choice((1, 1, 2, 3, 5)))
        if self.chance.random() < 0.2:
            self.truth.messages["update"] += 1
            for prefix in prefixes:
                self.truth.withdraw(key, prefix)
            return message(b"", attribute(0x80, 15, b"\0\2\1" + on_wire(prefixes)), b"") if six else message(on_wire(prefixes), b"", b"")
        path = self.path(peer, prefixes[0])
        with_set = len(path) > 3 and self.chance.random() < 0.05
        pieces, verdict = self.announcing(peer, prefixes, path, with_set), "update"
        if peer.width == 4 and self.chance.random() < 0.06:
            pieces, verdict = self.spoilt(peer, pieces)
        self.truth.messages[verdict] += 1
        for prefix in prefixes if verdict != "reset" else ():
            if verdict == "update":
                self.truth.announce(key, prefix, path, with_set)
            else:
                self.truth.withdraw(key, prefix)
        return message(b"", b"".join(pieces[:4]), pieces[4])

    def of(self, peer, what, octets):
        """A record of a peer: of its message, or of a change of its state."""
        subtype = {("message", 2): 1, ("message", 4): 4, ("state", 2): 0, ("state", 4): 5}[what, peer.width]
        address = bytes.fromhex(peer.address)
        numbers_of_both = struct.pack(">II" if peer.width == 4 else ">HH", peer.as_number, COLLECTOR_AS)
        family = struct.pack(">HH", 0, 1 if len(address) == 4 else 2)
        with_micros = self.chance.random() < 0.5
        micros = self.chance.randrange(1000000) if with_micros else None
        return record(self.second, BGP4MP_ET if with_micros else BGP4MP, subtype, numbers_of_both + family + address * 2 + octets, micros)

    def updates(self, count):
        """A file of updates."""
        found = []
        for number in range(count):
            # Of each 200 messages one peer sends the most, and the last come in a burst.
            busy, is_calm = PEERS[number // 200 % len(PEERS)], number % 200 < 140
            self.second += self.chance.random() < (0.25 if is_calm else 0.03)
            peer = busy if self.chance.random() < 0.6 else self.chance.choice(PEERS)
            if self.chance.random() < 0.002:
                self.truth.fall((self.collector, peer))
                found.append(self.of(peer, "state", struct.pack(">HH", 6, 1)) + self.of(peer, "state", struct.pack(">HH", 5, 6)))
            elif self.chance.random() < 0.02:
                self.truth.messages["keepalive"] += 1
                found.append(self.of(peer, "message", MARKER + b"\0\x13\4"))
            else:
                found.append(self.of(peer, "message", self.update(peer)))
        return b"".join(found)

    def table(self):
        """A table dump: what each peer has at the beginning."""
        peers = b"".join(bytes([2 | (len(it.address) > 8)]) + bytes(4) + bytes.fromhex(it.address) + struct.pack(">I", it.as_number) for it in PEERS)
        found = [record(self.second, TABLE, 1, bytes(6) + struct.pack(">H", len(PEERS)) + peers)]
        for number, prefix in enumerate(PREFIXES4[:200] + PREFIXES6[:40]):
            six, entries = len(prefix[1]) > 4, b""
            for at, peer in enumerate(PEERS):
                path = self.path(peer, prefix)
                self.truth.messages["table"] += 1
                self.truth.announce((self.collector, peer), prefix, path, False, is_table=True)
                hop = attribute(0x80, 14, b"\x10" + bytes.fromhex("20010db8" + "00" * 11 + "09")) if six else attribute(0x40, 3, bytes([192, 0, 2, 9]))
                attributes = attribute(0x40, 1, b"\0") + attribute(0x40, 2, path_value(path, 4, False)) + hop
                entries += struct.pack(">HIH", at, self.second, len(attributes)) + attributes
            body = struct.pack(">I", number) + on_wire([prefix]) + struct.pack(">H", len(PEERS)) + entries
            found.append(record(self.second, TABLE, 4 if six else 2, body))
        return b"".join(found)


PACKED = {"": bytes, ".gz": lambda octets: gzip.compress(octets, mtime=0), ".bz2": bz2.compress}


def write(path, octets):
    """Writes a file."""
    with open(path, "wb") as file:
        file.write(octets)


def make(folder, files, count):
    """Makes for each collector a table and a number of files with a number of updates. Answers their content."""
    truth = Truth()
    for seed, collector in enumerate(COLLECTORS):
        place, maker = os.path.join(folder, collector), Maker(collector, seed, truth)
        os.makedirs(place)
        write(os.path.join(place, "bview.20231114.2213.gz"), PACKED[".gz"](maker.table()))
        for number in range(files):
            ending = (".gz", "", ".bz2")[number % 3]
            at = 22 * 60 + 13 + 5 * number
            name = f"updates.20231114.{at // 60:02}{at % 60:02}{ending}"
            write(os.path.join(place, name), PACKED[ending](maker.updates(count)))
    return truth


if __name__ == "__main__":
    make(sys.argv[1], int(sys.argv[2]), int(sys.argv[3]))
