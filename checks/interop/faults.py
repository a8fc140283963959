"""UPDATEs and messages at fault, each with a name: what a peer that misbehaves sends after the KEEPALIVEs."""
import messages
from messages import attribute, message, path, prefix, update

ASN = 65002
ORIGIN = attribute(0x40, 1, b"\x00")
PATH = path([ASN])
HOP = attribute(0x40, 3, b"\xc0\x00\x02\x02")
BASIS = ORIGIN + PATH + HOP
NEW, GONE = prefix("203.0.113.0/24"), prefix("198.51.100.0/24")


def with_more(more, basis=BASIS):
    """A route with more attributes."""
    return update(basis + more, NEW)


def reach(value):
    return attribute(0x80, 14, value)


# Those that RFC 7606 lets a session outlive: a route, with something wrong about it.
OUTLIVED = {
    "attribute 28 of 3 octets": with_more(attribute(0xC0, 28, b"\x01\x02\x03")),
    "attribute 28, empty": with_more(attribute(0xC0, 28, b"")),
    "attribute 28, partial, of two octets of length": with_more(b"\xf0\x1c\x00\x01\xff"),
    "attribute 99, not transitive": with_more(attribute(0x80, 99, b"\x00" * 5)),
    "attribute 99 of 255 octets": with_more(attribute(0xC0, 99, b"\x00" * 255)),
    "attribute 128 of 21 octets": with_more(attribute(0xE0, 128, b"\x00" * 21)),
    "extended communities of 7 octets": with_more(attribute(0xC0, 16, b"\x00" * 7)),
    "a PMSI tunnel of 1 octet": with_more(attribute(0xC0, 22, b"\x00")),
    "tunnel encapsulation, cut inside": with_more(attribute(0xC0, 23, b"\x00\x01\x00\xff\x00")),
    "AIGP of 2 octets": with_more(attribute(0x80, 26, b"\x01\x00")),
    "BGP-LS of 3 octets": with_more(attribute(0x80, 29, b"\x04\x04\xff")),
    "OTC of 3 octets": with_more(attribute(0xC0, 35, b"\x00\x00\x01")),
    "a prefix SID of 2 octets": with_more(attribute(0xC0, 40, b"\x01\x00")),
    "ORIGIN of 5": update(attribute(0x40, 1, b"\x05") + PATH + HOP, NEW),
    "ORIGIN of 2 octets": update(attribute(0x40, 1, b"\x00\x00") + PATH + HOP, NEW),
    "ORIGIN, optional": update(attribute(0xC0, 1, b"\x00") + PATH + HOP, NEW),
    "ORIGIN twice": with_more(attribute(0x40, 1, b"\x02")),
    "no ORIGIN": update(PATH + HOP, NEW),
    "no AS_PATH": update(ORIGIN + HOP, NEW),
    "no NEXT_HOP": update(ORIGIN + PATH, NEW),
    "AS_PATH with a segment of type 5": update(ORIGIN + attribute(0x40, 2, b"\x05\x01\x00\x00\xfd\xea") + HOP, NEW),
    "AS_PATH with a segment past its end": update(ORIGIN + attribute(0x40, 2, b"\x02\x02\x00\x00\xfd\xea") + HOP, NEW),
    "AS_PATH with an empty segment": update(ORIGIN + attribute(0x40, 2, b"\x02\x01\x00\x00\xfd\xea\x02\x00") + HOP, NEW),
    "AS_PATH with AS 0": update(ORIGIN + path([ASN, 0]) + HOP, NEW),
    "AS_PATH of a confederation": update(ORIGIN + attribute(0x40, 2, b"\x03\x01\x00\x00\xfd\xea") + HOP, NEW),
    "AS_PATH twice": with_more(path([ASN, 65003])),
    "NEXT_HOP of 5 octets": update(ORIGIN + PATH + attribute(0x40, 3, b"\xc0\x00\x02\x02\x00"), NEW),
    "MED of 3 octets": with_more(attribute(0x80, 4, b"\x00" * 3)),
    "LOCAL_PREF from another AS": with_more(attribute(0x40, 5, b"\x00\x00\x00\xff")),
    "LOCAL_PREF of 3 octets": with_more(attribute(0x40, 5, b"\x00" * 3)),
    "ATOMIC_AGGREGATE of 1 octet": with_more(attribute(0x40, 6, b"\x00")),
    "AGGREGATOR of 6 octets": with_more(attribute(0xC0, 7, b"\xfd\xea\xc0\x00\x02\x02")),
    "AGGREGATOR of AS 0": with_more(attribute(0xC0, 7, b"\x00\x00\x00\x00\xc0\x00\x02\x02")),
    "communities of 5 octets": with_more(attribute(0xC0, 8, b"\x00" * 5)),
    "communities, empty": with_more(attribute(0xC0, 8, b"")),
    "large communities of 13 octets": with_more(attribute(0xC0, 32, b"\x00" * 13)),
    "large communities, a triple twice": with_more(attribute(0xC0, 32, (b"\x00" * 11 + b"\x01") * 2)),
    "AS4_PATH from a speaker of four octets": with_more(attribute(0xC0, 17, b"\x02\x01\x00\x00\xfd\xea")),
    "AS4_AGGREGATOR of 3 octets": with_more(attribute(0xC0, 18, b"\x00" * 3)),
    "ORIGINATOR_ID from another AS": with_more(attribute(0x80, 9, b"\x01\x02\x03\x04")),
    "CLUSTER_LIST of 3 octets": with_more(attribute(0x80, 10, b"\x00" * 3)),
    "an attribute cut by the field's end": update(BASIS + b"\xc0\x08\x08\x00", NEW),
    "attributes that end in two octets": update(BASIS + b"\xc0\x08", NEW),
    "IPv4 routes in MP_REACH_NLRI": with_more(reach(b"\x00\x01\x01\x04\xc0\x00\x02\x02\x00" + GONE)),
    "AS_PATH, optional": update(ORIGIN + attribute(0xC0, 2, PATH[3:]) + HOP, NEW),
    "NEXT_HOP, optional": update(ORIGIN + PATH + attribute(0xC0, 3, HOP[3:]), NEW),
    "MED, transitive": with_more(attribute(0xC0, 4, b"\x00\x00\x00\x01")),
    "MED twice": with_more(attribute(0x80, 4, b"\x00\x00\x00\x01") * 2),
    "ATOMIC_AGGREGATE, optional": with_more(attribute(0xC0, 6, b"")),
    "AGGREGATOR, not transitive": with_more(attribute(0x80, 7, b"\x00\x00\xfd\xea\xc0\x00\x02\x02")),
    "communities, not transitive": with_more(attribute(0x80, 8, b"\xfd\xea\x00\x01")),
    "large communities, not transitive": with_more(attribute(0x80, 32, b"\x00" * 11 + b"\x01")),
    "large communities, empty": with_more(attribute(0xC0, 32, b"")),
    "a family that wasn't offered": with_more(reach(b"\x00\x19\x41\x04\xc0\x00\x02\x02\x00\x00")),
}

# Those that end it, with the required NOTIFICATION.
ENDING = {
    "a well-known attribute 99": (with_more(attribute(0x40, 99, b"\x00")), (3, 2)),
    "two MP_REACH_NLRI": (with_more(reach(b"\x00\x01\x01\x04\xc0\x00\x02\x02\x00") * 2), (3, 1)),
    "MP_REACH_NLRI with a next hop of 5 octets": (with_more(reach(b"\x00\x01\x01\x05\xc0\x00\x02\x02\x00\x00")), (3, 9)),
    "MP_REACH_NLRI with a prefix of 129 bits": (with_more(reach(b"\x00\x02\x01\x10" + b"\x20" + b"\x00" * 15 + b"\x00" + b"\x81" + b"\x00" * 17)), (3, 9)),
    "MP_REACH_NLRI, transitive": (with_more(attribute(0xC0, 14, b"\x00\x01\x01\x04\xc0\x00\x02\x02\x00")), (3, 9)),
    "MP_REACH_NLRI of 4 octets": (with_more(reach(b"\x00\x01\x01\x00")), (3, 9)),
    "MP_REACH_NLRI cut by the field's end": (update(BASIS + b"\x80\x0e", NEW), (3, 1)),
    "MP_UNREACH_NLRI, transitive": (with_more(attribute(0xC0, 15, b"\x00\x01\x01")), (3, 9)),
    "two MP_UNREACH_NLRI": (with_more(attribute(0x80, 15, b"\x00\x01\x01") * 2), (3, 1)),
    "ORIGIN of 5 where nothing is announced": (update(attribute(0x40, 1, b"\x05"), b"", GONE), (3, 1)),
    "MP_UNREACH_NLRI of 2 octets": (with_more(attribute(0x80, 15, b"\x00\x01")), (3, 9)),
    "a prefix of 33 bits": (update(BASIS, b"\x21\x0a\x00\x00\x00\x00"), (3, 10)),
    "a prefix past the end": (update(BASIS, b"\x20\x0a"), (3, 10)),
    "withdrawn routes past the end": (message(messages.UPDATE, b"\xff\xff\x00\x00"), (3, 1)),
    "attributes past the end": (message(messages.UPDATE, b"\x00\x00\x00\x40\x40\x01\x01\x00"), (3, 1)),
    "no Marker": (b"\x00" * 19, (1, 1)),
    "a Length of 18": (b"\xff" * 16 + b"\x00\x12\x04", (1, 2)),
    "a Length of 4097": (b"\xff" * 16 + b"\x10\x01\x02", (1, 2)),
    "a KEEPALIVE of 20 octets": (message(messages.KEEPALIVE, b"\x00"), (1, 2)),
    "a type of 9": (message(9), (1, 3)),
    "an OPEN": (messages.open_message(ASN, 90, "192.0.2.2"), (5, 3)),
}


def opening(version=4, hold=90, identifier=b"\xc0\x00\x02\x02", parameters=b""):
    """An OPEN with these parameters."""
    return message(messages.OPEN, bytes([version]) + ASN.to_bytes(2, "big") + hold.to_bytes(2, "big") + identifier + bytes([len(parameters)]) + parameters)


# Those that are sent instead of the OPEN, with the required NOTIFICATION.
OPENINGS = {
    "an OPEN of version 3": (opening(version=3), (2, 1)),
    "an OPEN with a Hold Time of 1": (opening(hold=1), (2, 6)),
    "an OPEN with identifier 0": (opening(identifier=bytes(4)), (2, 3)),
    "an OPEN with a parameter of type 1": (opening(parameters=b"\x01\x01\x00"), (2, 4)),
    "an OPEN with a parameter past its end": (opening(parameters=b"\x02\x06\x41\x04"), (2, 0)),
    "an OPEN with neither family": (opening(parameters=b"\x02\x06\x01\x04\x00\x19\x00\x41"), (6, 5)),
    "an OPEN of 28 octets": (message(messages.OPEN, bytes(9)), (1, 2)),
    "a KEEPALIVE in place of the OPEN": (messages.keepalive(), (5, 1)),
    "an UPDATE in place of the OPEN": (update(BASIS, NEW), (5, 1)),
}
