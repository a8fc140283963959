"""Messages of BGP-4 as octets, written from RFC 4271, RFC 4760 and RFC 6793 without code of the crates."""
import ipaddress
import struct

OPEN, UPDATE, NOTIFICATION, KEEPALIVE, ROUTE_REFRESH = 1, 2, 3, 4, 5
# Capabilities for ROUTE-REFRESH (RFC 2918), and for where one begins and ends (RFC 7313).
REFRESH_OFFER, ENHANCED_OFFER = b"\x02\x00", b"\x46\x00"


def message(kind, body=b""):
    return b"\xff" * 16 + struct.pack(">HB", 19 + len(body), kind) + body


def keepalive():
    return message(KEEPALIVE)


def open_message(asn, hold, identifier, more=b""):
    """An OPEN that offers IPv4 and IPv6 unicast and AS numbers of four octets, and more capabilities."""
    capabilities = b"\x01\x04\x00\x01\x00\x01" + b"\x01\x04\x00\x02\x00\x01" + b"\x41\x04" + struct.pack(">I", asn) + more
    parameters = b"\x02" + bytes([len(capabilities)]) + capabilities
    fixed = struct.pack(">BHH", 4, asn if asn < 65536 else 23456, hold) + ipaddress.ip_address(identifier).packed
    return message(OPEN, fixed + bytes([len(parameters)]) + parameters)


def refresh(afi, safi, subtype=0, more=b""):
    """A ROUTE-REFRESH (RFC 2918, section 3; RFC 7313, section 3.2)."""
    return message(ROUTE_REFRESH, struct.pack(">HBB", afi, subtype, safi) + more)


def attribute(flags, kind, value):
    if len(value) > 255:
        return struct.pack(">BBH", flags | 0x10, kind, len(value)) + value
    return struct.pack(">BBB", flags, kind, len(value)) + value


def prefix(text):
    network = ipaddress.ip_network(text)
    return bytes([network.prefixlen]) + network.network_address.packed[: (network.prefixlen + 7) // 8]


def path(asns):
    return attribute(0x40, 2, bytes([2, len(asns)]) + b"".join(struct.pack(">I", asn) for asn in asns))


def update(attributes, nlri=b"", withdrawn=b""):
    return message(UPDATE, struct.pack(">H", len(withdrawn)) + withdrawn + struct.pack(">H", len(attributes)) + attributes + nlri)


def announce4(routes, asns, hop, origin=0):
    """UPDATEs that announce IPv4 routes, as many in each as fit."""
    attributes = attribute(0x40, 1, bytes([origin])) + path(asns) + attribute(0x40, 3, ipaddress.ip_address(hop).packed)
    return [update(attributes, b"".join(map(prefix, routes[at : at + 500]))) for at in range(0, len(routes), 500)]


def announce6(routes, asns, hop):
    """UPDATEs that announce IPv6 routes."""
    head = b"\x00\x02\x01\x10" + ipaddress.ip_address(hop).packed + b"\x00"
    found = []
    for at in range(0, len(routes), 300):
        reach = attribute(0x80, 14, head + b"".join(map(prefix, routes[at : at + 300])))
        found.append(update(reach + attribute(0x40, 1, b"\x00") + path(asns)))
    return found


def split(octets):
    """The whole messages that octets begin with, and the rest."""
    found = []
    while len(octets) >= 19:
        (length,) = struct.unpack(">H", octets[16:18])
        if length < 19 or len(octets) < length:
            break
        found.append(octets[:length])
        octets = octets[length:]
    return found, octets
