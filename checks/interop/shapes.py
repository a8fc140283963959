"""UPDATEs of many shapes, drawn from a seed: well formed most of them, and all such as a real or a hostile neighbour may send.

`drawn` gives pairs of a name and the octets, for one kind of session.
"""
import ipaddress
import struct

import faults
from messages import UPDATE, attribute, message, prefix

MOST = 4096
# The sessions: an external one, one without AS numbers of four octets, an internal one.
EXTERNAL, TWO_OCTETS, INTERNAL = "external", "two octets", "internal"
MODES = (EXTERNAL, TWO_OCTETS, INTERNAL)
NEIGHBOUR, OWN = 65002, 65001

# Next hops that aren't a host's, and some that are.
HOPS4 = (
    "0.0.0.0", "0.1.2.3", "127.0.0.1", "127.255.255.254", "224.0.0.5", "239.255.255.255", "240.0.0.1", "255.255.255.255", "255.255.255.254", "169.254.1.1",
    "192.0.2.255", "127.0.0.2", "198.18.0.0", "1.1.1.1", "223.255.255.255", "10.0.0.0",
)
HOPS6 = (
    ("::",), ("::1",), ("ff02::1",), ("ff0e::1",), ("ff00::",), ("fe80::1",), ("febf::1",), ("::ffff:192.0.2.2",), ("::192.0.2.2",), ("2002:c000:202::1",), ("64:ff9b::c000:202",),
    ("fec0::1",), ("fc00::1",), ("100::1",), ("2001:db8::",), ("2001::1",), ("::ffff:127.0.0.1",), ("2001:db8::2", "fe80::2"), ("2001:db8::2", "2001:db8::3"), ("2001:db8::2", "::"),
    ("2001:db8::2", "ff02::1"), ("2001:db8::2", "::1"), ("fe80::2", "fe80::3"), ("fe80::2", "2001:db8::2"), ("::", "fe80::2"), ("::1", "fe80::2"), ("ff0e::1", "fe80::2"),
    ("::ffff:192.0.2.2", "fe80::2"), ("2001:db8::2", "::ffff:192.0.2.2"), ("fe80::2", "::"), ("fc00::1", "fe80::2"),
)


def packed(text):
    return ipaddress.ip_address(text).packed


def body_of(withdrawn, attributes, nlri):
    return struct.pack(">H", len(withdrawn)) + withdrawn + struct.pack(">H", len(attributes)) + attributes + nlri


def room_of(withdrawn=b"", attributes=b"", nlri=b""):
    """The octets that are free below the most that a message has."""
    return MOST - 19 - len(body_of(withdrawn, attributes, nlri))


class Draw:
    """What random UPDATEs are made of, for one kind of session."""

    def __init__(self, random, mode):
        self.random, self.mode = random, mode
        self.width = 2 if mode == TWO_OCTETS else 4
        self.asn = OWN if mode == INTERNAL else NEIGHBOUR

    # Prefixes.

    def one4(self, least=8, most=32):
        length = self.random.randint(least, most)
        address = self.random.choice((10, 20, 45, 100, 150, 185, 190)) << 24 | self.random.getrandbits(24)
        return prefix(str(ipaddress.ip_network((address, length), strict=False)))

    def some4(self, count=None):
        return b"".join(self.one4() for _ in range(count or self.random.choice((1, 1, 2, 5, 30))))

    def one6(self, least=16, most=128):
        length = self.random.randint(least, most)
        address = (0x2A00 + self.random.getrandbits(8)) << 112 | self.random.getrandbits(112)
        return prefix(str(ipaddress.ip_network((address, length), strict=False)))

    def some6(self, count=None):
        return b"".join(self.one6() for _ in range(count or self.random.choice((1, 1, 2, 5, 20))))

    def filled(self, one, room):
        """As many prefixes as fit, without an octet to spare."""
        found = b""
        while len(found) < room:
            more = one()
            if len(found) + len(more) > room:
                return found + b"\x00" * (room - len(found))
            found += more
        return found

    # Attributes.

    def origin(self, value=None):
        return attribute(0x40, 1, bytes([self.random.randint(0, 2) if value is None else value]))

    def segment(self, kind, asns):
        return bytes([kind, len(asns)]) + b"".join(asn.to_bytes(self.width, "big") for asn in asns)

    def path(self, *segments):
        """AS_PATH of these segments, each a type and AS numbers."""
        return attribute(0x40, 2, b"".join(self.segment(kind, asns) for kind, asns in segments))

    def asns(self, count):
        top = 64000 if self.width == 2 else 400000
        return [self.random.choice((self.random.randint(1, 64000), self.random.randint(1, top))) for _ in range(count)]

    def usual_path(self, more=None):
        asns = self.asns(self.random.randint(0, 6) if more is None else more)
        if self.mode == INTERNAL:
            return self.path((2, asns)) if asns else self.path()
        return self.path((2, [self.asn, *asns]))

    def hop(self, text="192.0.2.2"):
        return attribute(0x40, 3, packed(text))

    def preference(self):
        return attribute(0x40, 5, struct.pack(">I", 100)) if self.mode == INTERNAL else b""

    def sound(self, hop="192.0.2.2"):
        """Attributes of a valid route."""
        return self.origin() + self.usual_path() + (self.hop(hop) if hop else b"") + self.preference()

    def communities(self, count):
        return attribute(0xC0, 8, b"".join(struct.pack(">HH", self.random.randint(1, 64000), self.random.getrandbits(16)) for _ in range(count)))

    def large(self, count):
        return attribute(0xC0, 32, b"".join(struct.pack(">III", self.random.randint(1, 400000), self.random.getrandbits(32), n) for n in range(count)))

    def reach4(self, routes, hop="192.0.2.2"):
        return attribute(0x80, 14, b"\x00\x01\x01\x04" + packed(hop) + b"\x00" + routes)

    def reach6(self, routes, *hops):
        hop = b"".join(map(packed, hops or ("2001:db8::2",)))
        return attribute(0x80, 14, b"\x00\x02\x01" + bytes([len(hop)]) + hop + b"\x00" + routes)

    def unreach4(self, routes):
        return attribute(0x80, 15, b"\x00\x01\x01" + routes)

    def unreach6(self, routes):
        return attribute(0x80, 15, b"\x00\x02\x01" + routes)

    def unknown(self, size=None):
        kind = self.random.choice([it for it in range(19, 255) if it not in (32, 128)])
        flags = self.random.choice((0xC0, 0x80, 0xE0))
        return attribute(flags, kind, self.random.randbytes(self.random.choice((0, 1, 4, 40, 255, 256)) if size is None else size))

    def aggregator(self, asn=None):
        return attribute(0xC0, 7, (asn or self.asns(1)[0]).to_bytes(self.width, "big") + packed("192.0.2.9"))

    # Messages.

    def update(self, attributes, nlri=b"", withdrawn=b""):
        octets = message(UPDATE, body_of(withdrawn, attributes, nlri))
        assert len(octets) <= MOST, len(octets)
        return octets

    def mixed(self):
        """IPv4 unicast in MP_REACH_NLRI and MP_UNREACH_NLRI, alone and with the classic fields."""
        r = self.random
        same = self.one4()
        yield "MP_UNREACH_NLRI of IPv4", self.update(self.unreach4(self.some4()))
        yield "MP_UNREACH_NLRI of IPv4, one route", self.update(self.unreach4(prefix("203.0.113.0/24")))
        yield "MP_UNREACH_NLRI of IPv4, no routes", self.update(self.unreach4(b""))
        yield "MP_UNREACH_NLRI of IPv4, no routes, with attributes", self.update(self.sound() + self.unreach4(b""))
        yield "MP_UNREACH_NLRI of IPv4 and NLRI", self.update(self.sound() + self.unreach4(self.some4()), self.some4())
        yield "MP_UNREACH_NLRI of IPv4 without routes and NLRI", self.update(self.sound() + self.unreach4(b""), self.some4())
        yield "MP_UNREACH_NLRI of IPv4 and Withdrawn Routes", self.update(self.unreach4(self.some4()), b"", self.some4())
        yield "MP_UNREACH_NLRI of IPv4, Withdrawn Routes and NLRI", self.update(self.sound() + self.unreach4(self.some4()), self.some4(), self.some4())
        yield "MP_UNREACH_NLRI of IPv4 and NLRI of the same route", self.update(self.sound() + self.unreach4(same), same)
        yield "MP_UNREACH_NLRI of IPv4, first, and NLRI", self.update(self.unreach4(self.some4()) + self.sound(), self.some4())
        yield "MP_UNREACH_NLRI of IPv4 and MP_REACH_NLRI of IPv6", self.update(self.sound(None) + self.reach6(self.some6()) + self.unreach4(self.some4()))
        yield "MP_UNREACH_NLRI of IPv6 and MP_REACH_NLRI of IPv4", self.update(self.sound(None) + self.reach4(self.some4()) + self.unreach6(self.some6()))
        yield "MP_REACH_NLRI of IPv4, no NEXT_HOP", self.update(self.sound(None) + self.reach4(self.some4()))
        yield "MP_REACH_NLRI of IPv4, first", self.update(self.reach4(self.some4()) + self.sound(None))
        yield "MP_REACH_NLRI of IPv4, with NEXT_HOP", self.update(self.sound() + self.reach4(self.some4()))
        yield "MP_REACH_NLRI of IPv4 and NLRI", self.update(self.sound() + self.reach4(self.some4()), self.some4())
        yield "MP_REACH_NLRI of IPv4 and NLRI, two next hops", self.update(self.sound() + self.reach4(self.some4(), "192.0.2.77"), self.some4())
        yield "MP_REACH_NLRI of IPv4 and NLRI of the same route, two next hops", self.update(self.sound() + self.reach4(same, "192.0.2.77"), same)
        yield "MP_REACH_NLRI of IPv4, NLRI and Withdrawn Routes", self.update(self.sound() + self.reach4(self.some4()), self.some4(), self.some4())
        yield "MP_REACH_NLRI of IPv4 and Withdrawn Routes", self.update(self.sound(None) + self.reach4(self.some4()), b"", self.some4())
        yield "MP_REACH_NLRI of IPv4 without routes", self.update(self.sound(None) + self.reach4(b""))
        yield "MP_REACH_NLRI of IPv4 without routes, alone", self.update(self.reach4(b""))
        yield "MP_REACH_NLRI of IPv4 without routes, and NLRI", self.update(self.sound() + self.reach4(b""), self.some4())
        yield "MP_REACH_NLRI and MP_UNREACH_NLRI of IPv4", self.update(self.sound(None) + self.reach4(self.some4()) + self.unreach4(self.some4()))
        yield "MP_REACH_NLRI and MP_UNREACH_NLRI of IPv4, same route", self.update(self.sound(None) + self.reach4(same) + self.unreach4(same))
        yield "MP_REACH_NLRI of IPv4 and all else", self.update(
            self.sound() + self.communities(5) + self.reach4(self.some4(), "192.0.2.77") + self.unreach4(self.some4()), self.some4(), self.some4())
        hop = r.choice(HOPS4)
        yield f"MP_REACH_NLRI of IPv4 by {hop}", self.update(self.sound(None) + self.reach4(self.some4(), hop))
        basis = self.sound() + self.communities(300)
        half = self.filled(self.one4, 1200)
        rest = self.filled(self.one4, room_of(b"", basis + self.reach4(half)))
        yield "MP_REACH_NLRI of IPv4 and NLRI in 4096 octets", self.update(basis + self.reach4(half), rest)
        gone = self.filled(self.one4, 1000)
        more = self.unreach4(self.filled(self.one4, 1000))
        rest = self.filled(self.one4, room_of(gone, self.sound() + self.communities(100) + more) - 60)
        yield "MP_UNREACH_NLRI of IPv4, Withdrawn Routes and NLRI near 4096 octets", self.update(self.origin() + self.usual_path(1) + self.hop() + self.preference() + self.communities(100) + more, rest, gone)
        yield "MP_UNREACH_NLRI of IPv4 in 4096 octets", self.update(self.unreach4(self.filled(self.one4, MOST - 23 - 7)))
        yield "MP_REACH_NLRI of IPv4 by a next hop of 16 octets", self.update(self.sound(None) + attribute(0x80, 14, b"\x00\x01\x01\x10" + packed("2001:db8::2") + b"\x00" + self.some4()))

    def routeless(self):
        """Attributes of no route."""
        hop = self.hop()
        for name, attributes in {
            "ORIGIN and AS_PATH": self.origin() + self.usual_path(), "all mandatory ones": self.sound(), "NEXT_HOP": hop, "ORIGIN": self.origin(),
            "AS_PATH": self.usual_path(), "MED": attribute(0x80, 4, bytes(4)), "LOCAL_PREF": attribute(0x40, 5, bytes(4)), "communities": self.communities(3),
            "ATOMIC_AGGREGATE": attribute(0x40, 6, b""), "AGGREGATOR": self.aggregator(), "large communities": self.large(3), "an unknown one": self.unknown(),
            "NEXT_HOP 0.0.0.0": self.hop("0.0.0.0"), "ORIGIN and NEXT_HOP": self.origin() + hop, "AS_PATH and NEXT_HOP": self.usual_path() + hop,
            "3,900 octets": attribute(0xC0, 99, bytes(3900)),
        }.items():
            yield f"attributes without a route: {name}", self.update(attributes)
        yield "attributes and Withdrawn Routes alone", self.update(self.sound(), b"", self.some4())
        yield "ORIGIN and Withdrawn Routes", self.update(self.origin(), b"", self.some4())
        yield "MP_REACH_NLRI of IPv6 without routes", self.update(self.sound(None) + self.reach6(b""))
        yield "MP_REACH_NLRI of IPv6 without routes, first", self.update(self.reach6(b"") + self.sound(None))
        yield "MP_REACH_NLRI of IPv6 without routes, alone", self.update(self.reach6(b""))
        yield "MP_REACH_NLRI of IPv6 without routes, link-local", self.update(self.sound(None) + self.reach6(b"", "2001:db8::2", "fe80::2"))
        yield "MP_REACH_NLRI of IPv6 without routes, and NLRI", self.update(self.sound() + self.reach6(b""), self.some4())
        yield "MP_REACH_NLRI of IPv6 without routes, and Withdrawn Routes", self.update(self.sound(None) + self.reach6(b""), b"", self.some4())
        yield "MP_REACH_NLRI of IPv6 without routes, and MP_UNREACH_NLRI", self.update(self.sound(None) + self.reach6(b"") + self.unreach6(self.some6()))
        yield "MP_UNREACH_NLRI of IPv6 without routes, with attributes", self.update(self.sound(None) + self.unreach6(b""))
        yield "MP_UNREACH_NLRI of IPv6 without routes, and NLRI", self.update(self.sound() + self.unreach6(b""), self.some4())
        yield "MP_UNREACH_NLRI of IPv6 without routes, and Withdrawn Routes", self.update(self.unreach6(b""), b"", self.some4())
        yield "MP_UNREACH_NLRI of IPv6 with attributes", self.update(self.sound() + self.unreach6(self.some6()))
        yield "MP_REACH_NLRI and MP_UNREACH_NLRI of IPv6, both without routes", self.update(self.sound(None) + self.reach6(b"") + self.unreach6(b""))

    def hops(self):
        """Next hops, each once in a session's run."""
        for text in HOPS4:
            yield f"NEXT_HOP {text}", self.update(self.origin() + self.usual_path() + self.hop(text) + self.preference(), self.some4())
        for text in self.random.sample(HOPS4, 4):
            yield f"MP_REACH_NLRI of IPv4 by {text}", self.update(self.sound(None) + self.reach4(self.some4(), text))
        for text in HOPS6:
            yield f"MP_REACH_NLRI of IPv6 by {' and '.join(text)}", self.update(self.reach6(self.some6(), *text) + self.sound(None))
        hop = self.random.choice(HOPS4[:8])
        yield f"NEXT_HOP {hop} and MP_REACH_NLRI of IPv6", self.update(self.sound(hop) + self.reach6(self.some6()))
        yield f"NEXT_HOP {hop} and MP_REACH_NLRI of IPv6, and NLRI", self.update(self.sound(hop) + self.reach6(self.some6()), self.some4())
        hops = self.random.choice(HOPS6[:7])
        yield f"MP_REACH_NLRI of IPv6 by {hops[0]}, and NLRI", self.update(self.sound() + self.reach6(self.some6(), *hops), self.some4())
        yield f"MP_REACH_NLRI of IPv6 by {hops[0]}, and withdrawals", self.update(self.sound() + self.reach6(self.some6(), *hops) + self.unreach6(self.some6()), b"", self.some4())
        yield f"NEXT_HOP {hop} and Withdrawn Routes", self.update(self.sound(hop), self.some4(), self.some4())

    def paths(self):
        """AS paths: long ones, odd ones."""
        first = [] if self.mode == INTERNAL else [self.asn]

        def route(name, *segments):
            return name, self.update(self.origin() + self.path(*segments) + self.hop() + self.preference(), self.some4(1))

        def long(count):
            asns = first + self.asns(count - len(first))
            return [(2, asns[at : at + 255]) for at in range(0, count, 255)]

        for count in (200, 254, 255, 256, 300, 500, 501, self.random.randint(510, 1000), 1005 if self.width == 4 else 1015):
            yield route(f"a path of {count} ASes", *long(count))
        if self.width == 2:
            for count in (1500, 2000):
                yield route(f"a path of {count} ASes", *long(count))
        yield route("a path of 255 ASes, all the neighbour's", (2, [self.asn] * 255))
        yield route("an empty path")
        yield route("a path of a set alone", (1, [self.asn, *self.asns(2)]))
        yield route("a path with a set first", (1, self.asns(3)), (2, [self.asn]))
        yield route("a path with a set last", (2, first + self.asns(2)), (1, self.asns(3)))
        yield route("a set of 255", (2, first + self.asns(1)), (1, self.asns(255)))
        yield route("sets between sequences", (2, first + self.asns(1)), (1, self.asns(2)), (2, self.asns(2)), (1, self.asns(2)))
        yield route("a path with another first AS", (2, [65003, *self.asns(2)]))
        yield route("a path with AS 23456 first", (2, [23456, *self.asns(2)]))
        yield route("a path with AS 23456 inside", (2, [*first, 23456, *self.asns(1)]))
        yield route("a path with the hearer's AS", (2, [*first, OWN]))
        yield route("a path with the last AS", (2, [*first, 65535 if self.width == 2 else 4294967295]))
        yield route("a path with the last private AS", (2, [*first, 64512 if self.width == 2 else 4294967294]))
        yield route("a path of many segments", *[(2, [self.asn]) for _ in range(600)])
        yield route("a path of many sets", (2, first + self.asns(1)), *[(1, self.asns(1)) for _ in range(300)])
        yield route("a path with AS 0", (2, [*first, 0]))
        yield route("a confederation first", (3, self.asns(2)), (2, first + self.asns(1)))
        yield route("a confederation's set first", (4, self.asns(2)), (2, first + self.asns(1)))
        yield route("a confederation last", (2, first + self.asns(1)), (3, self.asns(2)))
        yield route("a confederation alone", (3, self.asns(1)))
        yield "MP_REACH_NLRI of IPv6 with an empty path", self.update(self.origin() + self.path() + self.preference() + self.reach6(self.some6()))
        yield "MP_REACH_NLRI of IPv6 with another first AS", self.update(self.origin() + self.path((2, [65003])) + self.preference() + self.reach6(self.some6()))
        yield "MP_REACH_NLRI of IPv6 with a path of 500 ASes", self.update(self.origin() + self.path(*long(500)) + self.preference() + self.reach6(self.some6(1)))

    def many(self):
        """Communities, as many as given."""
        for count in (1, 100, 254, 500, 757, 900, 990):
            yield f"{count} communities", self.update(self.sound() + self.communities(count), self.some4(1))
        for count in (1, 21, 100, 250, 330):
            yield f"{count} large communities", self.update(self.sound() + self.large(count), self.some4(1))
        yield "500 communities and 150 large ones", self.update(self.sound() + self.communities(500) + self.large(150), self.some4(1))
        yield "757 communities with MP_REACH_NLRI of IPv6", self.update(self.sound(None) + self.communities(757) + self.reach6(self.some6(1)))
        for name, value in {"NO_EXPORT": 0xFFFFFF01, "NO_ADVERTISE": 0xFFFFFF02, "NO_EXPORT_SUBCONFED": 0xFFFFFF03, "NOPEER": 0xFFFFFF04, "BLACKHOLE": 0xFFFF029A,
                            "GRACEFUL_SHUTDOWN": 0xFFFF0000, "LLGR_STALE": 0xFFFF0006, "NO_LLGR": 0xFFFF0007, "0:0": 0, "65535:65535": 0xFFFFFFFF}.items():
            yield f"community {name}", self.update(self.sound() + attribute(0xC0, 8, struct.pack(">I", value)), self.some4())
        yield "the same community 300 times", self.update(self.sound() + attribute(0xC0, 8, b"\xfd\xea\x00\x01" * 300), self.some4(1))
        yield "the same large community 100 times", self.update(self.sound() + attribute(0xC0, 32, b"\x00\x00\xfd\xea\x00\x00\x00\x01\x00\x00\x00\x02" * 100), self.some4(1))
        yield "large communities with AS 0", self.update(self.sound() + attribute(0xC0, 32, bytes(12) + b"\xff" * 12), self.some4())
        yield "extended communities", self.update(self.sound() + attribute(0xC0, 16, self.random.randbytes(8 * 5)), self.some4())
        yield "400 extended communities", self.update(self.sound() + attribute(0xC0, 16, self.random.randbytes(8 * 400)), self.some4(1))
        yield "IPv6 extended communities", self.update(self.sound() + attribute(0xC0, 25, self.random.randbytes(20)), self.some4())

    def full(self):
        """Messages of 4096 octets, or near."""
        sound = self.sound()
        yield "NLRI in 4096 octets", self.update(sound, self.filled(self.one4, room_of(b"", sound)))
        yield "NLRI of /32 alone near 4096 octets", self.update(sound, self.filled(lambda: self.one4(32), room_of(b"", sound) // 5 * 5))
        yield "NLRI of 0/0 alone in 4096 octets", self.update(sound, b"\x00" * room_of(b"", sound))
        yield "NLRI of /1 and /2 in 4096 octets", self.update(sound, b"\x01\x80\x02\x40" * (room_of(b"", sound) // 4))
        yield "Withdrawn Routes in 4096 octets", self.update(b"", b"", self.filled(self.one4, MOST - 23))
        yield "Withdrawn Routes of 0/0 alone in 4096 octets", self.update(b"", b"", b"\x00" * (MOST - 23))
        half = self.filled(self.one4, 2000)
        yield "Withdrawn Routes and NLRI in 4096 octets", self.update(sound, self.filled(self.one4, room_of(half, sound)), half)
        sound = self.sound(None)
        room = room_of(b"", sound + self.reach6(b"" * 300)) - 1
        yield "MP_REACH_NLRI of IPv6 in 4096 octets", self.update(sound + self.reach6(self.filled(self.one6, room)))
        yield "MP_REACH_NLRI of IPv6 of ::/0 alone in 4096 octets", self.update(sound + self.reach6(b"\x00" * room))
        yield "MP_REACH_NLRI of IPv6 of /128 near 4096 octets", self.update(sound + self.reach6(self.filled(lambda: self.one6(128), room // 17 * 17)))
        yield "MP_UNREACH_NLRI of IPv6 in 4096 octets", self.update(self.unreach6(self.filled(self.one6, MOST - 23 - 7)))
        yield "MP_UNREACH_NLRI of IPv6 of ::/0 alone in 4096 octets", self.update(self.unreach6(b"\x00" * (MOST - 23 - 7)))
        for less in (0, 1, 4, 30, 100, 299, 300, 301):
            basis = self.sound()
            count = (room_of(b"", basis, b"\x20\x2d\x01\x02\x03") - 4 - less) // 4
            yield f"a route of {MOST - less} octets by communities", self.update(basis + self.communities(count), self.one4(32))
        for less in (0, 1, 7, 50, 200):
            basis = self.sound()
            size = room_of(b"", basis, b"\x20\x2d\x01\x02\x03") - 4 - less
            yield f"a route of {MOST - less} octets by an unknown attribute", self.update(basis + attribute(0xC0, 99, bytes(size)), self.one4(32))
        basis = self.sound(None)
        count = (room_of(b"", basis + self.reach6(self.one6(128))) - 4) // 4
        yield "an IPv6 route of 4096 octets by communities", self.update(basis + self.communities(count) + self.reach6(self.one6(128)))

    def unknowns(self):
        """Attributes of types that are unassigned, or rare."""
        for flags in (0xC0, 0x80, 0xE0, 0xF0):
            for size in (0, 1, 255, 256, 3000):
                kind = self.random.choice((19, 99, 130, 200, 254, 255, 0))
                value = self.random.randbytes(size)
                one = attribute(flags & 0xEF, kind, value) if flags != 0xF0 else struct.pack(">BBH", flags, kind, size) + value
                yield f"attribute {kind}, flags {flags:02x}, of {size} octets", self.update(self.sound() + one, self.some4(1))
        yield "100 unknown attributes", self.update(self.sound() + b"".join(attribute(0xC0, kind, b"ab") for kind in range(130, 230)), self.some4(1))
        yield "unknown attributes first", self.update(self.unknown() + self.unknown(3) + self.sound(), self.some4(1))
        for kind in (11, 12, 13, 19, 20, 21, 22, 23, 24, 25, 26, 27, 28, 29, 33, 34, 35, 36, 37, 38, 39, 40, 128, 129):
            flags = 0x80 if kind in (13, 26, 29, 36) else 0xC0
            yield f"attribute {kind} of random octets", self.update(self.sound() + attribute(flags, kind, self.random.randbytes(self.random.randint(1, 40))), self.some4(1))
        yield "AIGP", self.update(self.sound() + attribute(0x80, 26, b"\x01\x00\x0b" + bytes(8)), self.some4())
        yield "OTC", self.update(self.sound() + attribute(0xC0, 35, struct.pack(">I", NEIGHBOUR)), self.some4())
        yield "a prefix SID", self.update(self.sound() + attribute(0xC0, 40, b"\x01\x00\x07" + bytes(7)), self.some4())

    def ends(self):
        """The forms of End-of-RIB."""
        yield "End-of-RIB of IPv4", self.update(b"")
        yield "End-of-RIB of IPv6", self.update(self.unreach6(b""))
        yield "End-of-RIB of IPv6, of two octets of length", self.update(b"\x90\x0f\x00\x03\x00\x02\x01")
        yield "End-of-RIB of a family that isn't in use", self.update(attribute(0x80, 15, b"\x00\x01\x80"))
        yield "End-of-RIB of IPv4 multicast", self.update(attribute(0x80, 15, b"\x00\x01\x02"))
        yield "End-of-RIB of IPv6, with another attribute", self.update(self.unreach6(b"") + attribute(0x80, 4, bytes(4)))
        yield "routes of IPv4 multicast", self.update(self.sound() + attribute(0x80, 14, b"\x00\x01\x02\x04" + packed("192.0.2.2") + b"\x00" + self.some4()))
        yield "routes of IPv6 multicast", self.update(self.sound(None) + attribute(0x80, 14, b"\x00\x02\x02\x10" + packed("2001:db8::2") + b"\x00" + self.some6()))
        yield "withdrawals of a VPN family", self.update(attribute(0x80, 15, b"\x00\x01\x80" + self.random.randbytes(20)))

    def prefixes(self):
        """Prefixes of unusual lengths and values."""
        same, other = self.one4(), self.one6()
        four = {
            "0.0.0.0/0": b"\x00", "0.0.0.0/1": b"\x01\x00", "0.0.0.0/8": b"\x08\x00", "0.0.0.0/32": b"\x20" + bytes(4), "127.0.0.0/8": b"\x08\x7f", "224.0.0.0/4": b"\x04\xe0",
            "240.0.0.0/4": b"\x04\xf0", "255.255.255.255/32": b"\x20" + b"\xff" * 4, "a prefix with bits behind its end": b"\x09\x0a\xff", "/0 with other routes": b"\x00" + self.some4(3),
            "a prefix three times": same * 3, "a prefix 700 times": same * (3000 // len(same)),
        }
        for name, routes in four.items():
            yield f"NLRI of {name}", self.update(self.sound(), routes)
            yield f"Withdrawn Routes of {name}", self.update(b"", b"", routes)
        six = {"::/0": b"\x00", "::/128": b"\x80" + bytes(16), "::1/128": b"\x80" + bytes(15) + b"\x01", "ff00::/8": b"\x08\xff", "fe80::/10": b"\x0a\xfe\x80", "fe80::/64": b"\x40\xfe\x80" + bytes(6),
               "a prefix with bits behind its end": b"\x11\x20\x01\xff", "a prefix three times": other * 3, "::ffff:0:0/96": b"\x60" + bytes(10) + b"\xff\xff"}
        for name, routes in six.items():
            yield f"MP_REACH_NLRI of IPv6 of {name}", self.update(self.sound(None) + self.reach6(routes))
            yield f"MP_UNREACH_NLRI of IPv6 of {name}", self.update(self.unreach6(routes))
        yield "a route withdrawn and announced", self.update(self.sound(), same, same)
        yield "the route that stands, withdrawn and announced", self.update(self.sound(), prefix("203.0.113.0/24"), prefix("203.0.113.0/24"))
        yield "an IPv6 route withdrawn and announced", self.update(self.sound(None) + self.reach6(other) + self.unreach6(other))
        yield "a withdrawal of what isn't there", self.update(b"", b"", prefix("203.0.112.0/25"))

    def odd(self):
        """Flags, orders and lengths that are allowed or that a receiver forgives."""
        parts = [self.origin(), self.usual_path(), self.hop(), attribute(0x80, 4, bytes(4)), self.communities(2), self.aggregator()] + [self.preference()] * (self.mode == INTERNAL)
        self.random.shuffle(parts)
        yield "attributes in another order", self.update(b"".join(parts), self.some4())
        yield "ORIGIN with two octets of length", self.update(b"\x50\x01\x00\x01\x00" + self.usual_path() + self.hop() + self.preference(), self.some4())
        yield "ORIGIN, partial", self.update(b"\x60\x01\x01\x00" + self.usual_path() + self.hop() + self.preference(), self.some4())
        yield "ORIGIN with flags below", self.update(b"\x4f\x01\x01\x00" + self.usual_path() + self.hop() + self.preference(), self.some4())
        yield "communities, partial", self.update(self.sound() + b"\xe0\x08\x04\xfd\xea\x00\x01", self.some4())
        yield "MP_REACH_NLRI of IPv6, partial", self.update(self.sound(None) + b"\xa0" + self.reach6(self.one6())[1:])
        yield "MP_REACH_NLRI of IPv6 with its reserved octet set", self.update(self.sound(None) + attribute(0x80, 14, b"\x00\x02\x01\x10" + packed("2001:db8::2") + b"\xff" + self.one6()))
        for value in (0, 1, 2):
            yield f"ORIGIN {value}", self.update(self.origin(value) + self.usual_path() + self.hop() + self.preference(), self.some4())
        for value in (b"\x00" * 4, b"\xff" * 4, b"\x80\x00\x00\x00"):
            yield f"MED {value.hex()}", self.update(self.sound() + attribute(0x80, 4, value), self.some4())
        yield "ATOMIC_AGGREGATE and AGGREGATOR", self.update(self.sound() + attribute(0x40, 6, b"") + self.aggregator(), self.some4())
        yield "AGGREGATOR of AS 23456", self.update(self.sound() + self.aggregator(23456), self.some4())
        yield "AGGREGATOR of 0.0.0.0", self.update(self.sound() + attribute(0xC0, 7, self.asn.to_bytes(self.width, "big") + bytes(4)), self.some4())
        yield "IPv4 and IPv6 routes together", self.update(self.sound() + self.reach6(self.some6()), self.some4())
        yield "IPv4 and IPv6 routes and withdrawals together", self.update(self.sound() + self.reach6(self.some6()) + self.unreach6(self.some6()), self.some4(), self.some4())
        yield "DPA, ADVERTISER and RCID_PATH", self.update(self.sound() + attribute(0xC0, 11, b"\xfd\xea" + bytes(4)) + attribute(0x80, 12, bytes(4)) + attribute(0x80, 13, bytes(8)), self.some4())

    def preferences(self):
        """LOCAL_PREF, ORIGINATOR_ID and CLUSTER_LIST."""
        basis = self.origin() + self.usual_path() + self.hop()
        without = self.origin() + self.usual_path()
        yield "no LOCAL_PREF", self.update(basis, self.some4())
        yield "no LOCAL_PREF, MP_REACH_NLRI of IPv6", self.update(without + self.reach6(self.some6()))
        yield "no LOCAL_PREF, IPv4 and IPv6", self.update(basis + self.reach6(self.some6()), self.some4())
        yield "no LOCAL_PREF, with Withdrawn Routes", self.update(basis, self.some4(), self.some4())
        for value in (b"\x00" * 4, b"\xff" * 4, b"\x80\x00\x00\x00", b"\x00\x00\x00\x64"):
            yield f"LOCAL_PREF {value.hex()}", self.update(basis + attribute(0x40, 5, value), self.some4())
        preference = attribute(0x40, 5, b"\x00\x00\x00\x64")
        for name, more in {
            "ORIGINATOR_ID": attribute(0x80, 9, packed("192.0.2.9")), "ORIGINATOR_ID of the hearer": attribute(0x80, 9, packed("192.0.2.1")), "ORIGINATOR_ID 0.0.0.0": attribute(0x80, 9, bytes(4)),
            "CLUSTER_LIST": attribute(0x80, 10, packed("192.0.2.9")), "CLUSTER_LIST of the hearer": attribute(0x80, 10, packed("192.0.2.1")),
            "CLUSTER_LIST of 500": attribute(0x80, 10, bytes(2000)), "both": attribute(0x80, 9, packed("192.0.2.9")) + attribute(0x80, 10, packed("192.0.2.8")),
            "ORIGINATOR_ID of 3 octets": attribute(0x80, 9, bytes(3)), "CLUSTER_LIST, empty": attribute(0x80, 10, b""),
        }.items():
            yield name, self.update(basis + preference + more, self.some4(1))

    def narrow(self):
        """AS4_PATH and AS4_AGGREGATOR."""

        def path4(*segments):
            return attribute(0xC0, 17, b"".join(bytes([kind, len(asns)]) + b"".join(struct.pack(">I", asn) for asn in asns) for kind, asns in segments))

        def route(name, segments, more, nlri=True):
            return name, self.update(self.origin() + self.path(*segments) + self.hop() + self.preference() + more, self.some4(1) if nlri else b"")

        wide = [200000 + n for n in range(600)]
        yield route("AS_TRANS without AS4_PATH", [(2, [NEIGHBOUR, 23456])], b"")
        yield route("AS4_PATH for AS_TRANS", [(2, [NEIGHBOUR, 23456])], path4((2, [NEIGHBOUR, 200000])))
        yield route("AS4_PATH shorter than AS_PATH", [(2, [NEIGHBOUR, 65010, 23456])], path4((2, [200000])))
        yield route("AS4_PATH longer than AS_PATH", [(2, [NEIGHBOUR])], path4((2, wide[:5])))
        yield route("AS4_PATH of 500 ASes", [(2, [NEIGHBOUR]), (2, [23456] * 250), (2, [23456] * 250)], path4((2, wide[:250]), (2, wide[250:500])))
        yield route("AS4_PATH of 600 ASes", [(2, [NEIGHBOUR]), *[(2, [23456] * 150)] * 4], path4(*[(2, wide[n * 150 : n * 150 + 150]) for n in range(4)]))
        yield route("AS4_PATH with a set", [(2, [NEIGHBOUR, 23456]), (1, [23456])], path4((2, [200000]), (1, [200001, 200002])))
        yield route("AS4_PATH of a confederation", [(2, [NEIGHBOUR, 23456])], path4((3, [200000])))
        yield route("AS4_PATH with a confederation first", [(2, [NEIGHBOUR, 23456])], path4((3, [65010]), (2, [200000])))
        yield route("AS4_PATH, empty", [(2, [NEIGHBOUR, 23456])], path4())
        yield route("AS4_PATH with AS 0", [(2, [NEIGHBOUR, 23456])], path4((2, [0])))
        yield route("AS4_PATH with AS 23456", [(2, [NEIGHBOUR, 23456])], path4((2, [23456])))
        yield route("AS4_PATH with the hearer's AS", [(2, [NEIGHBOUR, 23456])], path4((2, [OWN])))
        yield route("AS4_PATH without a route", [(2, [NEIGHBOUR, 23456])], path4((2, [200000])), False)
        trans = attribute(0xC0, 7, (23456).to_bytes(2, "big") + packed("192.0.2.9"))
        yield route("AGGREGATOR of AS_TRANS alone", [(2, [NEIGHBOUR])], trans)
        yield route("AS4_AGGREGATOR for AS_TRANS", [(2, [NEIGHBOUR])], trans + attribute(0xC0, 18, struct.pack(">I", 200000) + packed("192.0.2.9")))
        yield route("AS4_AGGREGATOR beside another AS", [(2, [NEIGHBOUR])], self.aggregator(65010) + attribute(0xC0, 18, struct.pack(">I", 200000) + packed("192.0.2.9")) + path4((2, [200000])))
        yield route("AS4_AGGREGATOR alone", [(2, [NEIGHBOUR])], attribute(0xC0, 18, struct.pack(">I", 200000) + packed("192.0.2.9")))
        yield route("AS4_AGGREGATOR of AS 0", [(2, [NEIGHBOUR])], trans + attribute(0xC0, 18, bytes(4) + packed("192.0.2.9")))

    def any(self):
        """A random UPDATE, well formed."""
        r = self.random
        while True:
            has4, has6, gone, gone6 = r.random() < 0.7, r.random() < 0.35, r.random() < 0.25, r.random() < 0.2
            parts = []
            if has4 or has6:
                first = [] if self.mode == INTERNAL else [self.asn]
                asns = first + self.asns(r.choice((0, 1, 3, 10, 100)))
                segments = [(2, asns[at : at + 255]) for at in range(0, len(asns), 255)]
                if r.random() < 0.15:
                    segments.append((1, self.asns(r.randint(1, 10))))
                parts += [self.origin(), self.path(*segments)]
                if has4:
                    parts.append(self.hop())
                if self.mode == INTERNAL:
                    parts.append(attribute(0x40, 5, r.randbytes(4)))
                for chance, one in (
                    (0.4, lambda: attribute(0x80, 4, r.randbytes(4))), (0.2, lambda: attribute(0x40, 6, b"")), (0.2, self.aggregator),
                    (0.5, lambda: self.communities(r.choice((1, 3, 20, 200)))), (0.4, lambda: self.large(r.choice((1, 3, 20, 60)))), (0.3, self.unknown), (0.15, self.unknown),
                ):
                    if r.random() < chance:
                        parts.append(one())
                if has6:
                    parts.append(self.reach6(self.some6(), *r.choice((("2001:db8::2",), ("2001:db8::2", "fe80::2")))))
            if gone6:
                parts.append(self.unreach6(self.some6()))
            if r.random() < 0.3:
                r.shuffle(parts)
            kinds = [one[1] for one in parts]
            attributes = b"".join(parts)
            nlri, withdrawn = self.some4() if has4 else b"", self.some4() if gone else b""
            if len(kinds) == len(set(kinds)) and room_of(withdrawn, attributes, nlri) >= 0 and (has4 or has6 or gone or gone6):
                return self.update(attributes, nlri, withdrawn)


def drawn(random, mode, count):
    """Pairs of a name and an UPDATE: each shape, and random ones, at least this number in all."""
    draw = Draw(random, mode)
    groups = [draw.mixed, draw.routeless, draw.hops, draw.paths, draw.many, draw.full, draw.unknowns, draw.ends, draw.prefixes, draw.odd, draw.preferences]
    if mode == TWO_OCTETS:
        groups = [draw.narrow, draw.paths, draw.mixed, draw.routeless, draw.many, draw.full]
    elif mode == INTERNAL:
        groups = [draw.preferences, draw.paths, draw.mixed, draw.routeless, draw.hops, draw.ends]
    found = [pair for group in groups for pair in group()]
    if mode == EXTERNAL:
        found += list(faults.OUTLIVED.items()) + [(name, octets) for name, (octets, _) in faults.ENDING.items() if octets[18:19] == bytes([UPDATE])]
    found += [("random", draw.any()) for _ in range(max(count - len(found), 0))]
    random.shuffle(found)
    return found
