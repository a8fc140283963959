"""Packets of a TCP connection and files of them, written by hand: links, IPv4 and IPv6, TCP with its options, pcap and pcapng."""
import ipaddress
import struct

FIN, SYN, RST, ACK = 0x01, 0x02, 0x04, 0x10
NUMBERS = 1 << 32
BEGIN = 1700000000
SEGMENT = 1448
# The option of RFC 2385 with a digest of zeros, filled up to a multiple of 4 octets.
MD5 = b"\x13\x12" + bytes(16) + b"\x01\x01"


def of_ip(source, target, protocol, payload):
    """A packet of IPv4 or IPv6."""
    one, other = (ipaddress.ip_address(it).packed for it in (source, target))
    if len(one) == 4:
        return struct.pack(">BBHHHBBH", 0x45, 0, 20 + len(payload), 0, 0, 64, protocol, 0) + one + other + payload
    return struct.pack(">IHBB", 6 << 28, len(payload), protocol, 64) + one + other + payload


def of_udp(source, target, ports, payload):
    """A packet of UDP."""
    return of_ip(source, target, 17, struct.pack(">HHHH", *ports, 8 + len(payload), 0) + payload)


class Connection:
    """A TCP connection between 'A', which opens it, and 'B': each call adds packets a second later, with the numbers that TCP gives them."""

    def __init__(self, hosts=("192.0.2.1", "192.0.2.2"), ports=(40000, 179), numbers=(1000, 5000), options=b"", begin=BEGIN):
        self.hosts, self.ports, self.options, self.time = hosts, ports, options, begin
        self.next = dict(zip("AB", numbers))
        self.packets = []

    def packet(self, side, flags, octets=b"", number=None):
        """Adds a packet: its time, itself."""
        one, other = (0, 1) if side == "A" else (1, 0)
        number = self.next[side] if number is None else number
        acknowledged = self.next["BA"[one]] if flags & ACK else 0
        head = struct.pack(">HHIIBBHHH", self.ports[one], self.ports[other], number % NUMBERS, acknowledged % NUMBERS,
                           (20 + len(self.options)) * 4, flags, 4096, 0, 0)
        self.packets.append((self.time, of_ip(self.hosts[one], self.hosts[other], 6, head + self.options + octets)))
        self.next[side] = max(self.next[side], number + len(octets) + bool(flags & (SYN | FIN)))

    def wait(self, seconds):
        self.time += seconds
        return self

    def open(self):
        """The three packets with which it begins."""
        self.packet("A", SYN)
        self.packet("B", SYN | ACK)
        self.packet("A", ACK)
        return self

    def say(self, side, *messages, size=SEGMENT):
        """Octets, each in segments of its own, and what acknowledges them."""
        for octets in messages:
            self.time += 1
            for at in range(0, len(octets), size):
                self.packet(side, ACK, octets[at:at + size])
            self.packet("BA"["AB".index(side)], ACK)
        return self

    def end(self, side, flags=FIN | ACK):
        """Its end: a FIN that is answered by one, or a RST."""
        self.time += 1
        self.packet(side, flags)
        if flags & FIN:
            self.packet("BA"["AB".index(side)], FIN | ACK)
            self.packet(side, ACK)
        return self


def unreachable(packet, source):
    """A router's answer to a packet that it can't forward: ICMP, destination unreachable, code 13."""
    return of_ip(source, str(ipaddress.ip_address(packet[12:16])), 1, struct.pack(">BBHI", 3, 13, 0, 0) + packet[:28])


# What precedes a packet on each link, with its type in a file: Ethernet, with a tag of 802.1Q, with two, as Linux captures of "any" in both forms.
def kind_of(packet):
    return b"\x08\x00" if packet[0] >> 4 == 4 else b"\x86\xdd"


MACS = bytes.fromhex("020000000001 020000000002")
LINKS = {
    "raw": (101, lambda it: it),
    "ethernet": (1, lambda it: MACS + kind_of(it) + it),
    "vlan": (1, lambda it: MACS + bytes.fromhex("8100 0064") + kind_of(it) + it),
    "qinq": (1, lambda it: MACS + bytes.fromhex("88a8 00c8 8100 0064") + kind_of(it) + it),
    "sll": (113, lambda it: bytes.fromhex("0000 0001 0006 0200000000010000") + kind_of(it) + it),
    "sll2": (276, lambda it: kind_of(it) + bytes.fromhex("0000 00000002 0001 00 06 0200000000010000") + it),
}


def pcap(packets, link="raw", snap=65535, order="<", is_nano=False):
    """A file of pcap. Each packet is cut to this length."""
    number, wrap = LINKS[link]
    found = bytearray(struct.pack(f"{order}IHHiIII", 0xA1B23C4D if is_nano else 0xA1B2C3D4, 2, 4, 0, 0, snap, number))
    for time, packet in packets:
        whole = wrap(packet)
        part = round((time % 1) * (10 ** 9 if is_nano else 10 ** 6))
        found += struct.pack(f"{order}IIII", int(time), part, min(len(whole), snap), len(whole)) + whole[:snap]
    return bytes(found)


def block(kind, body):
    """A block of pcapng, filled up to a multiple of 4 octets."""
    body += bytes(-len(body) % 4)
    return struct.pack("<II", kind, len(body) + 12) + body + struct.pack("<I", len(body) + 12)


def pcapng(packets, link="ethernet"):
    """A file of pcapng."""
    number, wrap = LINKS[link]
    found = block(0x0A0D0D0A, struct.pack("<IHHq", 0x1A2B3C4D, 1, 0, -1)) + block(1, struct.pack("<HHI", number, 0, 0))
    for time, packet in packets:
        whole, micros = wrap(packet), round(time * 10 ** 6)
        found += block(6, struct.pack("<IIIII", 0, micros >> 32, micros & (NUMBERS - 1), len(whole), len(whole)) + whole)
    return found
