"""The BGP sessions of a capture of packets, as `tshark` reads it: what from-pcap and why share."""
import collections
import ipaddress
import os
import select
import shutil
import signal
import subprocess
import sys
import tempfile

import streams

FIELDS = [
    "tcp.stream", "ip.src", "ipv6.src", "tcp.srcport", "ip.dst", "ipv6.dst", "tcp.dstport", "tcp.seq_raw", "tcp.ack_raw", "tcp.flags", "tcp.len",
    "frame.time_epoch", "icmp.type", "icmp.code", "icmpv6.type", "icmpv6.code", "udp.srcport", "udp.dstport", "tcp.payload",
]
FIN, SYN, RST, ACK = 0x01, 0x02, 0x04, 0x10
NUMBERS = 1 << 32

# A finished connection is reported once nothing more arrived for this many seconds, on the capture's clock, or on ours for a live capture.
LATE, IDLE = 2, 1

End = collections.namedtuple("End", "address port")
Way = collections.namedtuple("Way", "connection source target")
Packet = collections.namedtuple("Packet", "way number acknowledged flags size time order octets")
Segment = collections.namedtuple("Segment", "place octets time size acknowledged")


class Direction:
    """What one end sent: its segments, each with the offset of its first octet from the first that was seen, however often the numbers wrap."""

    def __init__(self):
        self.origin, self.place, self.begin, self.segments = None, 0, None, []
        self.packets = self.attempts = 0
        self.opens, self.answers, self.fin, self.rst, self.first, self.last = False, False, None, None, None, None
        self.acknowledged = self.first_acknowledged = self.unreachable = self.end = None
        self.base = 0

    def add(self, packet):
        """Adds a segment. The number of a SYN is that before the first octet's."""
        flags, time = packet.flags, packet.time
        first = packet.number + bool(flags & SYN)
        if self.origin is None:
            self.origin, self.first = first, time
        self.place = self.place_of(first)
        self.packets += 1
        if flags & SYN:
            self.opens, self.answers = not flags & ACK, bool(flags & ACK)
            self.attempts += 1
            self.begin = self.place if self.begin is None else self.begin
        if packet.size:
            self.segments.append(Segment(self.place, packet.octets, time, packet.size, packet.acknowledged if flags & ACK else None))
        if flags & ACK:
            self.acknowledged = packet.acknowledged
            self.first_acknowledged = packet.acknowledged if self.first_acknowledged is None else self.first_acknowledged
        # Of two at one time the first in the capture counts.
        if flags & FIN and self.fin is None:
            self.fin, self.end = (time, packet.order), self.place + packet.size
        self.rst = (time, packet.order) if flags & RST and self.rst is None else self.rst
        self.last = time

    def place_of(self, number):
        """The offset of a sequence number."""
        return self.place + signed(number - self.origin - self.place)

    def runs(self):
        """The octets in order, as received without a gap; offsets count from the first octet of the connection, or the first that was captured."""
        ordered = sorted((it for it in self.segments if it.octets), key=lambda it: it.place)
        places = [it.place for it in self.segments]
        self.base = self.begin if self.begin is not None else min(places, default=self.place)
        found, octets, ends, times, place = [], bytearray(), [], [], 0
        for segment in ordered:
            at = segment.place - self.base
            known = place + len(octets) - at
            if known < 0 or not times:
                if times:
                    found.append(streams.Run(place, bytes(octets), ends, times))
                octets, ends, times = bytearray(), [], []
                place, known = max(at, 0), max(-at, 0)
            if known < len(segment.octets):
                octets += segment.octets[known:]
                ends.append(len(octets))
                # What was sent before it may have come after it.
                times.append(max(segment.time, times[-1] if times else segment.time))
        return found + [streams.Run(place, bytes(octets), ends, times)] * bool(times)

    def sent(self, other):
        """Up to which offset this end sent octets, captured or not, as its segments and what the other end acknowledges say."""
        end = max((it.place + it.size for it in self.segments), default=self.place if self.begin is None else self.begin)
        if other is not None and other.acknowledged is not None and self.origin is not None:
            # A FIN has a number of its own, captured or not.
            acknowledged = self.place_of(other.acknowledged)
            acknowledged -= self.end is not None or acknowledged == end + 1
            end = max(end, acknowledged) if acknowledged - end < NUMBERS >> 2 else end
        return end - self.base

    def read(self, other=None):
        """Reads the messages."""
        runs = self.runs()
        reading = streams.Reading(runs, self.begin is not None)
        last = runs[-1].place + len(runs[-1].octets) if runs else 0
        end = self.sent(other)
        if end > last:
            reading.gaps.append(streams.Gap(last, end, None, None, reading.leave_rest()))
        return reading

    def is_cut(self):
        """Whether the capture has segments of which octets were cut off."""
        return any(len(it.octets) < it.size for it in self.segments)

    def acknowledged_with(self, end):
        """What this end acknowledged as it first sent the octet before an offset: none where that isn't known."""
        return next((it.acknowledged for it in self.segments if it.place - self.base < end <= it.place - self.base + it.size), None)


class Connection:
    """A TCP connection: its number, as Wireshark counts, and both directions, that of its opener first."""

    def __init__(self, number):
        self.number, self.ways = number, {}

    def add(self, packet):
        """Adds a packet."""
        self.ways.setdefault(packet.way, Direction()).add(packet)

    def is_over(self):
        """Whether it is closed."""
        return any(it.rst is not None for it in self.ways.values()) or sum(it.fin is not None for it in self.ways.values()) == 2

    def last(self):
        """The time of its last packet."""
        return max(it.last for it in self.ways.values())

    def both(self, port):
        """Both directions, with their ways. One that the capture doesn't have is empty."""
        ways = dict(self.ways)
        one = next(iter(ways))
        ways.setdefault(Way(self.number, one.target, one.source), Direction())
        return sorted(ways.items(), key=lambda it: (not it[1].opens, it[1].answers, it[0].source.port == port))


def signed(number):
    """A difference of sequence numbers, the smaller way round."""
    return (number + NUMBERS // 2) % NUMBERS - NUMBERS // 2


class Capture:
    """A capture: its connections of a port, each when it is over for a live capture, and else at the end. Then `ports` counts the
    packets of others, `marked` has those of which octets look like BGP, `headless` counts the packets that are cut inside their headers, and `damage`
    says what `tshark` said."""

    def __init__(self, path, port):
        self.path, self.port, self.is_live = path, port, path == "-"
        self.ports, self.marked, self.headless, self.damage = collections.Counter(), set(), 0, None
        self.connections, self.told, self.latest, self.count = {}, set(), {}, 0

    def __iter__(self):
        command = ["tshark", "-n", "-l", "-r", self.path, "--disable-protocol", "bgp", "-Y", "tcp || udp", "-T", "fields", "-E", "occurrence=l"]
        for field in FIELDS:
            command += ["-e", field]
        if shutil.which(command[0]) is None:
            raise OSError("there is no tshark: Debian's package of that name has it")
        if self.is_live:
            # What ends the capture, as Ctrl-C does, doesn't end this before all is reported; a second one does.
            signal.signal(signal.SIGINT, lambda *_: signal.signal(signal.SIGINT, signal.SIG_DFL))
        with tempfile.TemporaryFile() as said, subprocess.Popen(command, stdout=subprocess.PIPE, stderr=said, start_new_session=self.is_live) as process:
            for line in lines_of(process.stdout.fileno()):
                time = self.add(line) if line is not None else None
                if self.is_live:
                    yield from self.over(time)
            process.wait()
            said.seek(0)
            words = [line for line in said.read().decode(errors="replace").splitlines() if line and not line.startswith("Running as user")]
        if process.returncode != 0:
            self.damage = words[-1] if words else f"tshark ended with status {process.returncode}"
        yield from (self.connections[number] for number in sorted(self.connections))

    def add(self, line):
        """Adds a packet, as tshark prints it, and answers its time."""
        self.count += 1
        (
            connection, source4, source6, source_port, target4, target6, target_port, number, acknowledged, flags, size, time, icmp, code, icmp6, code6,
            udp_source, udp_target, payload,
        ) = line.decode().rstrip("\n").split("\t")
        # Old ones have colons between octets.
        payload = payload.replace(":", "")
        if not source_port or not (source4 or source6):
            self.ports["udp", min(int(udp_source or 0), int(udp_target or 0))] += bool(udp_source)
            return None
        source = End(ipaddress.ip_address(source4 or source6), int(source_port))
        target = End(ipaddress.ip_address(target4 or target6), int(target_port))
        if self.port not in (source.port, target.port):
            port = min(source.port, target.port)
            self.ports["tcp", port] += 1
            if payload.startswith("ff" * 16):
                self.marked.add(port)
            return None
        if icmp or icmp6:
            self.add_unreachable(source, target, (icmp, code) if icmp else (icmp6, code6))
            return None
        if not connection or not number or not flags or not size:
            self.headless += 1
            return None
        packet = Packet(
            Way(int(connection), source, target), int(number), int(acknowledged or 0), int(flags, 16), int(size), float(time), self.count, bytes.fromhex(payload),
        )
        if packet.way.connection not in self.told:
            self.connections.setdefault(packet.way.connection, Connection(packet.way.connection)).add(packet)
            self.latest[source, target] = packet.way
        return packet.time

    def add_unreachable(self, source, target, kind):
        """Adds an error of ICMP that answers a packet: type 3, or 1 of ICMPv6, says that the target can't be reached."""
        way = self.latest.get((source, target))
        if way is not None and way.connection in self.connections and kind[0] in ("3", "1"):
            self.connections[way.connection].ways[way].unreachable = int(kind[1] or 0)

    def over(self, time):
        """The finished connections, of which nothing arrived for a while at this time, or where nothing at all arrived for a while."""
        for number, it in [*self.connections.items()]:
            if it.is_over() and (time is None or time > it.last() + LATE):
                del self.connections[number]
                self.told.add(number)
                yield it

    def without(self):
        """What is reported of a capture without a connection of the port."""
        if self.headless:
            return f"no BGP can be read: {self.headless} packets of TCP port {self.port} are cut inside their headers (snap length)"
        seen = ", ".join(f"{protocol} {port} ({count})" for (protocol, port), count in self.ports.most_common(8) if count)
        told = f"no BGP: no packet of TCP port {self.port}; ports that were seen, with their packets: {seen or 'none'}"
        return told + "".join(f"; octets of TCP port {port} look like BGP: --port {port}" for port in sorted(self.marked))


    def told_at_the_end(self, name, count):
        """Reports what was left out and what is wrong with the capture, of which this number of connections was reported, and answers the status."""
        if self.headless:
            print(f"{name}: left out: {self.headless} packets that are cut inside their headers", file=sys.stderr)
        if self.damage:
            print(f"{name}: {self.damage}", file=sys.stderr)
            return 4
        if not count:
            print(self.without())
        return 0 if count else 1


def lines_of(file):
    """The lines that arrive, and none where for a while there are no more."""
    held = b""
    while True:
        while not select.select([file], [], [], IDLE)[0]:
            yield None
        octets = os.read(file, 1 << 16)
        if not octets:
            return
        *lines, held = (held + octets).split(b"\n")
        yield from lines
