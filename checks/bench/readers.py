"""Readers of a stream of messages, each used as its own documents say: `checks/bench/python` measures them, each in a process of its own.

    readers.py NAME STREAM [MESSAGES] [ROUNDS]

prints as JSON the number of messages and routes that the reader found, the seconds of the best round without its imports, and its version. STREAM
has 4-octet AS numbers, and routes of IPv4 and IPv6; of it the first MESSAGES are read, all where that is 0."""
import concurrent.futures
import json
import logging
import mmap
import multiprocessing
import os
import pathlib
import subprocess
import sys
import tempfile
import time

HERE = pathlib.Path(__file__).resolve().parent
TOP = HERE.parent.parent
HEADER, KEEPALIVE = 19, 4


def messages_in(octets):
    """The messages of a stream, each its type and its body."""
    at = 0
    while at < len(octets):
        end = at + int.from_bytes(octets[at + 16 : at + 18], "big")
        yield octets[at + 18], octets[at + HEADER : end]
        at = end


def first(octets, count):
    """The first messages, this many."""
    at = 0
    for _ in range(count):
        if at < len(octets):
            at += int.from_bytes(octets[at + 16 : at + 18], "big")
    return octets[:at] if count else octets


# ---- this package ----


def context():
    import ristulva

    return ristulva.Context(as4=True, ip4=True, ip6=True)


def by_table(octets):
    """The array of routes."""
    import ristulva

    return lambda: ristulva.table(octets, context()).routes.size


def by_four_tables(octets):
    """The arrays of routes, AS numbers, communities and large communities."""
    import ristulva

    def read():
        table = ristulva.table(octets, context())
        return (table.routes.size, table.path_numbers.size, table.communities.size, table.large_communities.size)[0]

    return read


def by_threads(count):
    """The array of routes in each of some threads."""

    def reader(octets):
        read = by_table(octets)
        threads = concurrent.futures.ThreadPoolExecutor(count)
        return lambda: sum(done.result() for done in [threads.submit(read) for _ in range(count)])

    return reader


def table_of_file(name):
    """How many routes a file has: what a process of several does."""
    import ristulva

    with open(name, "rb") as file, mmap.mmap(file.fileno(), 0, access=mmap.ACCESS_READ) as octets:
        return ristulva.table(octets, context()).routes.size


def by_processes(count):
    """The array of routes in each of some processes, of a file that they map."""

    def reader(octets):
        with tempfile.NamedTemporaryFile(delete=False) as file:
            file.write(octets)
        pool = multiprocessing.Pool(count)
        pool.map(table_of_file, [file.name] * count * 2, chunksize=1)
        return lambda: sum(pool.map(table_of_file, [file.name] * count, chunksize=1))

    return reader


def by_messages(octets):
    """Objects: of each message its routes, and its facts."""
    import ristulva

    def read():
        count = 0
        for message in ristulva.messages(octets, context()):
            count += len(message.routes())
            message.facts()
        return count

    return read


def by_show(octets):
    """`bgp show --json`, read by Python's json."""
    program = os.environ["BGP"]

    def read():
        count = 0
        with tempfile.TemporaryFile() as file:
            file.write(octets)
            file.seek(0)
            with subprocess.Popen([program, "show", "--json", "--as4", "--ip4", "--ip6"], stdin=file, stdout=subprocess.PIPE) as showing:
                for it in map(json.loads, showing.stdout):
                    reach, unreach = it.get("mp_reach", {}).get("nlri", ()), it.get("mp_unreach", {}).get("withdrawn", ())
                    count += len(it.get("nlri", ())) + len(it.get("withdrawn", ())) + len(it.get("routes", ())) + len(reach) + len(unreach)
        return count

    return read


# ---- others ----


def by_exabgp(octets):
    """exabgp's decoder, as exabgp/configuration/check.py uses it; it parses attributes, and makes an object of each route."""
    from exabgp.configuration.setup import environment

    environment.setup("")
    from exabgp.bgp.message import Open, Update
    from exabgp.bgp.message.direction import Direction
    from exabgp.bgp.message.open import ASN, HoldTime, RouterID, Version
    from exabgp.bgp.message.open.capability import Capabilities, Capability, Negotiated
    from exabgp.bgp.neighbor import Neighbor
    from exabgp.logger import Logger
    from exabgp.protocol.family import AFI, SAFI

    logger = Logger()
    logger._option = dict.fromkeys(logger._option, False)
    neighbor = Neighbor()
    neighbor.local_as = neighbor.peer_as = ASN(200000)
    neighbor.router_id = RouterID("192.0.2.1")
    neighbor.add_family((AFI.ipv4, SAFI.unicast))
    neighbor.add_family((AFI.ipv6, SAFI.unicast))
    capabilities = Capabilities()
    capabilities[Capability.CODE.MULTIPROTOCOL] = neighbor.families()
    capabilities[Capability.CODE.FOUR_BYTES_ASN] = ASN(200000)
    negotiated = Negotiated(neighbor)
    negotiated.sent(Open(Version(4), ASN(23456), HoldTime(180), RouterID("192.0.2.1"), capabilities))
    negotiated.received(Open(Version(4), ASN(23456), HoldTime(180), RouterID("192.0.2.2"), capabilities))

    def read():
        return sum(len(Update.unpack_message(body, Direction.IN, negotiated).nlris) for kind, body in messages_in(octets) if kind == 2)

    return read


def by_scapy(octets):
    """scapy's layers, one message at a time."""
    logging.getLogger("scapy").setLevel(logging.ERROR)
    from scapy.contrib import bgp

    bgp.bgp_module_conf.use_2_bytes_asn = False

    def routes_of(update):
        count = len(update.withdrawn_routes) + len(update.nlri)
        for attribute in update.path_attr:
            if attribute.type_code in (14, 15):
                value = attribute.attribute
                count += len(value.nlri if attribute.type_code == 14 else value.afi_safi_specific.withdrawn_routes)
        return count

    def read():
        return sum(routes_of(bgp.BGPUpdate(body)) for kind, body in messages_in(octets) if kind == 2)

    return read


def as_archive(octets, path):
    """Writes the messages as an MRT archive of one peer (RFC 6396, section 4.4.3)."""
    peer = (65001).to_bytes(4, "big") + (65002).to_bytes(4, "big") + bytes.fromhex("00000001 c0000201 c0000202")
    with open(path, "wb") as file:
        for kind, body in messages_in(octets):
            record = peer + b"\xff" * 16 + (HEADER + len(body)).to_bytes(2, "big") + bytes([kind]) + body
            file.write((1700000000).to_bytes(4, "big") + bytes.fromhex("00100004") + len(record).to_bytes(4, "big") + record)


def by_bgpdump(octets):
    """`bgpdump -m` of an MRT archive, whose lines Python splits."""
    path = os.path.join(tempfile.mkdtemp(), "archive.mrt")
    as_archive(octets, path)

    def read():
        count = 0
        with subprocess.Popen(["bgpdump", "-m", path], stdout=subprocess.PIPE, stderr=subprocess.DEVNULL, text=True) as dumping:
            for line in dumping.stdout:
                count += line.split("|")[2] in "AW"
        return count

    return read


def as_capture(octets, path):
    """Writes the messages as a capture of packets without Ethernet, each message a segment of one connection (RFC 791, RFC 793)."""
    at = 1
    with open(path, "wb") as file:
        file.write(bytes.fromhex("d4c3b2a1 0200 0400 00000000 00000000 ffff0000 65000000"))
        for kind, body in messages_in(octets):
            message = b"\xff" * 16 + (HEADER + len(body)).to_bytes(2, "big") + bytes([kind]) + body
            tcp = bytes.fromhex("00b3 c001") + at.to_bytes(4, "big") + bytes.fromhex("00000001 5018 ffff 0000 0000") + message
            ip = bytes.fromhex("4500") + (20 + len(tcp)).to_bytes(2, "big") + bytes.fromhex("00000000 4006 0000 c0000201 c0000202") + tcp
            file.write((1700000000).to_bytes(4, "little") + bytes(4) + len(ip).to_bytes(4, "little") * 2 + ip)
            at += len(message)


def by_tshark(octets):
    """`tshark -T fields` of a capture, whose lines Python splits."""
    path = os.path.join(tempfile.mkdtemp(), "capture.pcap")
    as_capture(octets, path)
    names = ["nlri_prefix", "withdrawn_prefix", *[f"mp_{field}_nlri_ipv{version}_prefix" for field in ("reach", "unreach") for version in (4, 6)]]
    words = ["tshark", "-n", "-r", path, "-T", "fields", *[word for name in names for word in ("-e", f"bgp.{name}")]]

    def read():
        count = 0
        with subprocess.Popen(words, stdout=subprocess.PIPE, stderr=subprocess.DEVNULL, text=True) as dumping:
            for line in dumping.stdout:
                count += len(line.replace(",", " ").split())
        return count

    return read


READERS = {
    "table": by_table, "four-tables": by_four_tables, "messages": by_messages, "show-json": by_show, "exabgp": by_exabgp, "scapy": by_scapy,
    "bgpdump": by_bgpdump, "tshark": by_tshark,
}
AT_A_TIME = {"threads": by_threads, "processes": by_processes}


def version_of(name):
    """The version of what reads."""
    if name == "exabgp":
        from exabgp import version

        return version.release
    if name == "scapy":
        import scapy

        return scapy.VERSION
    return ""


def main():
    name, path = sys.argv[1:3]
    count, rounds = (int(word) for word in (*sys.argv[3:], "0", "3")[:2]) if len(sys.argv) > 3 else (0, 3)
    octets = first(pathlib.Path(path).read_bytes(), count)
    messages = sum(1 for _ in messages_in(octets))
    kind, _, number = name.partition("-")
    times = int(number) if kind in AT_A_TIME else 1
    read, least, routes = (AT_A_TIME[kind](times) if kind in AT_A_TIME else READERS[name])(octets), float("inf"), 0
    for _ in range(rounds):
        began = time.perf_counter()
        routes = read()
        least = min(least, time.perf_counter() - began)
    print(json.dumps({"messages": messages * times, "routes": routes, "seconds": least, "version": version_of(name)}))
    sys.stdout.flush()
    # Pools of processes and threads end with it.
    os._exit(0)


if __name__ == "__main__":
    main()
