"""Captures, each with what happened in it and what contrib/why has to say of it: the expected lines are written by hand, from the octets below and the RFCs.

The octets of healthy sessions are those that GoBGP and OpenBGPD (AS numbers of four octets), and BIRD and ExaBGP (of two), wrote, as examples/ has them."""
import collections
import pathlib
import struct
import sys

sys.dont_write_bytecode = True
sys.path.insert(0, str(pathlib.Path(__file__).resolve().parent.parent / "interop"))
import packets
from messages import NOTIFICATION, OPEN, UPDATE, attribute, keepalive, message, path, prefix, split, update
from packets import ACK, FIN, RST, SYN, Connection, pcap, pcapng

TOP = pathlib.Path(__file__).resolve().parent.parent.parent

# A capture: its name, what happened, its file, the lines that have to be printed (the first one is in the table), what may not be printed (a regular
# expression), the status, and more words for the script.
Scene = collections.namedtuple("Scene", "name happened file told never status words")
SCENES = []


def read(name):
    """The messages of an example."""
    return split(bytes.fromhex("".join((TOP / "examples" / f"{name}.hex").read_text().split())))[0]


GOBGP, OPENBGPD, SHUTDOWN = read("updates-of-gobgp"), read("updates-of-openbgpd"), read("openbgpd-until-its-shutdown")
EXABGP, BIRD = read("updates-of-exabgp-in-two-octets"), read("table-of-bird-in-two-octets")
# Where GoBGP's last message ends, and OpenBGPD's.
AFTER, AFTER_B = 502, 462
A, B = "192.0.2.1:40000", "192.0.2.2:179"

ORIGIN, PATH, HOP, NEW = attribute(0x40, 1, b"\0"), path([65004]), attribute(0x40, 3, b"\xc0\0\2\1"), prefix("203.0.113.0/24")
COMMUNITY = attribute(0xC0, 8, bytes.fromhex("fdec0001"))
SOUND = update(ORIGIN + PATH + HOP, NEW)
# COMMUNITIES of 5 octets, after the header (19), two lengths (4), ORIGIN (4), AS_PATH (9) and NEXT_HOP (7): 43 octets.
FIVE = attribute(0xC0, 8, bytes(5))
OF_FIVE, IN_FIVE = update(ORIGIN + PATH + HOP + FIVE, NEW), 43
BEYOND = message(UPDATE, bytes.fromhex("0000 0040 40010100"))
NOTED = update(ORIGIN + PATH + HOP + attribute(0x40, 5, bytes(4)), NEW)
WITHOUT_HOP = update(ORIGIN + PATH, NEW)
OF_ORIGIN_5 = update(attribute(0x40, 1, b"\5") + PATH + HOP, NEW)


def notification(code, subcode, data=b""):
    return message(NOTIFICATION, bytes([code, subcode]) + data)


def opening(number, capabilities, hold=90):
    """An OPEN of this AS number with these capabilities, besides that for AS numbers of four octets and IPv4 unicast."""
    found = bytes.fromhex("010400010001 4104") + struct.pack(">I", number) + capabilities
    fixed = struct.pack(">BHHIB", 4, number, hold, 0xC0000200 + number % 100, 2 + len(found))
    return message(OPEN, fixed + bytes([2, len(found)]) + found)


def scene(name, happened, file, told, never="$^", status=0, words=()):
    SCENES.append(Scene(name, happened, file, told, never, status, words))


def up(a=GOBGP, b=OPENBGPD, **more):
    """A connection over which both said all this: OPENs and KEEPALIVEs first, in turn."""
    it = Connection(**more).open()
    return it.say("A", a[0]).say("B", b[0]).say("A", a[1]).say("B", b[1]).say("A", *a[2:]).say("B", *b[2:])


def opened(capabilities_a, capabilities_b, **more):
    """A connection over which both said their OPENs, with these capabilities, and their KEEPALIVEs."""
    one, other = opening(65004, bytes.fromhex(capabilities_a)), opening(65003, bytes.fromhex(capabilities_b))
    return up([one, keepalive()], [other, keepalive()], **more), len(one) + 19


def shut_down(**more):
    """The session of OpenBGPD that ends by its shutdown."""
    return up(b=SHUTDOWN, **more).end("B")


# It is sent after 17 seconds: four OPENs and KEEPALIVEs, 6 messages of GoBGP, 7 of OpenBGPD.
SHUT = (f'ended 2023-11-14 22:13:37.000: {B} sent NOTIFICATION 6/2 (Cease: Administrative Shutdown), data 166d6f76696e6720746865207261636b20c3a4c3b6c3bc, '
        'which says "moving the rack äöü"')


def shapes():
    """The same session in other forms."""
    for name, link in (("Ethernet", "ethernet"), ("one VLAN tag", "vlan"), ("two VLAN tags", "qinq"), ("Linux cooked", "sll"), ("Linux cooked, version 2", "sll2")):
        scene(name, "OpenBGPD is shut down, with a text", pcap(shut_down().packets, link), [SHUT])
    v6 = shut_down(hosts=("2001:db8::1", "2001:db8::2")).packets
    scene("IPv6", "OpenBGPD is shut down, with a text", pcap(v6, "ethernet"), [SHUT.replace(B, "[2001:db8::2]:179")])
    scene("TCP's MD5 option", "the same", pcap(shut_down(options=packets.MD5).packets), [SHUT])
    scene("pcapng", "the same", pcapng(shut_down().packets), [SHUT])
    scene("nanoseconds, big endian", "the same", pcap(shut_down().packets, order=">", is_nano=True), [SHUT])
    # Sequence numbers pass 2^32 inside the OPENs.
    scene("numbers that wrap", "the same", pcap(shut_down(numbers=((1 << 32) - 20, (1 << 32) - 30)).packets), [SHUT])
    all_of_it = shut_down().packets
    late = all_of_it[:10] + [it for pair in zip(all_of_it[11:27:2], all_of_it[10:26:2]) for it in pair] + all_of_it[26:]
    scene("segments in another order", "the same", pcap(late), [SHUT])
    twice = all_of_it[:20] + all_of_it[3:20] + all_of_it[20:]
    scene("retransmitted segments", "the same", pcap(twice), [SHUT])
    small = Connection().open()
    for side, octets in (("A", GOBGP[0]), ("B", SHUTDOWN[0]), ("A", GOBGP[1]), ("B", b"".join(SHUTDOWN[1:]))):
        small.say(side, octets, size=1)
    scene("a segment an octet", "the same", pcap(small.end("B").packets), [SHUT.replace("37.000", "24.000")])
    scene("a file that is cut off", "the same, and the capture was killed as it wrote", pcap(shut_down().packets)[:-9], [SHUT], status=4)


def answered():
    """NOTIFICATIONs, and for which message they are."""
    it = up().say("A", OF_FIVE, SOUND, NOTED).say("B", notification(3, 5, FIVE))
    scene("data: an attribute", "COMMUNITIES of 5 octets, two more UPDATEs, then 3/5 with the attribute", pcap(it.packets),
          [f"for {A}'s UPDATE at octet {AFTER}; its data are the COMMUNITY at octet {AFTER + IN_FIVE}", "it is treated as a withdrawal by bgp: theirs 3/5, ours none",
           f"or else for what it sent at octet {AFTER + len(OF_FIVE) + len(SOUND)}"])
    it = up().say("A", OF_FIVE, SOUND).say("B", notification(3, 5))
    scene("no data, a fault", "the same without data, and one UPDATE after it", pcap(it.packets),
          [f"for {A}'s UPDATE at octet {AFTER}; it is the last that bgp answers or notes"])
    it = up().say("A", SOUND).say("B", notification(3, 10))
    scene("no data, no fault", "a valid UPDATE, which is answered by 3/10", pcap(it.packets),
          [f"for {A}'s UPDATE at octet {AFTER}; it is the last UPDATE before that", "it is accepted by bgp: theirs 3/10, ours none"])
    it = up().say("A", update(ORIGIN + PATH + HOP + COMMUNITY, NEW), SOUND).say("B", notification(3, 4, COMMUNITY))
    scene("data of a valid message", "an UPDATE with a community, another one, then 3/4 with the community", pcap(it.packets),
          [f"for {A}'s UPDATE at octet {AFTER}; its data are the COMMUNITY at octet {AFTER + IN_FIVE}", "it is accepted by bgp: theirs 3/4, ours none"])
    it = up().say("A", WITHOUT_HOP, SOUND).say("B", notification(3, 3, b"\3"))
    scene("data: a type that is missing", "an UPDATE without NEXT_HOP, a valid one, then 3/3 with type 3", pcap(it.packets),
          [f"for {A}'s UPDATE at octet {AFTER}; its data are the type of an attribute that it lacks, 3"])
    it = up().say("A", BEYOND).say("B", notification(3, 1))
    scene("one verdict", "attributes that go beyond the UPDATE, 3/1", pcap(it.packets),
          [f"for {A}'s UPDATE at octet {AFTER}; it is the last that bgp answers or notes", "bgp's verdict is the same"])
    it = up().say("A", OF_FIVE).say("B", OPENBGPD[-1]).say("A", BEYOND).say("B", notification(3, 1))
    scene("a session that outlived a fault", "COMMUNITIES of 5 octets, later attributes that go beyond the UPDATE, 3/1", pcap(it.packets),
          [f"for {A}'s UPDATE at octet {AFTER + len(OF_FIVE)}; it is the last that bgp answers or notes", "bgp's verdict is the same",
           f"or else for what it sent at octet {AFTER}"])
    it = up().say("A", message(4, b"\0")).say("B", notification(1, 2, b"\0\x14"))
    scene("data: a Length", "a KEEPALIVE of 20 octets, 1/2", pcap(it.packets),
          [f"for {A}'s KEEPALIVE at octet {AFTER}; its data are the Length at octet {AFTER + 16}", "bgp's verdict is the same"])
    it = up().say("A", bytes(19)).say("B", notification(1, 1))
    scene("no Marker", "19 octets of zero, 1/1", pcap(it.packets),
          [f"for {A}'s message of type 0 at octet {AFTER}; it is the last that bgp answers or notes", "bgp's verdict is the same"])
    it = up().say("A", message(5, b"\0\1\0\1")).say("B", notification(1, 3, b"\5"))
    scene("ROUTE-REFRESH, not understood", "a ROUTE-REFRESH, which both offer, 1/3 with its type", pcap(it.packets),
          [f"for {A}'s ROUTE-REFRESH at octet {AFTER}; its data are the Type at octet {AFTER + 18}", "it is accepted by bgp: theirs 1/3, ours none",
           f"{A} sent OPEN 1, KEEPALIVE 1, UPDATE 6, ROUTE-REFRESH 1"], never="passed over|isn't judged")
    it, after = opened("0200", "")
    scene("ROUTE-REFRESH, not offered", "a ROUTE-REFRESH, which the other end doesn't offer, 1/3 with its type",
          pcap(it.say("A", message(5, b"\0\1\0\1")).say("B", notification(1, 3, b"\5")).packets),
          [f"for {A}'s ROUTE-REFRESH at octet {after}; its data are the Type at octet {after + 18}", "it isn't judged here: of type 5 (ROUTE-REFRESH)",
           f"{A} sent OPEN 1, KEEPALIVE 1, ROUTE-REFRESH 1 (passed over)"])
    it = up().say("A", message(5, b"\0\1\0")).say("B", notification(1, 2, b"\0\x16"))
    scene("ROUTE-REFRESH, cut off", "a ROUTE-REFRESH without a SAFI, 1/2 with its Length", pcap(it.packets),
          [f"for {A}'s ROUTE-REFRESH at octet {AFTER}; its data are the Length at octet {AFTER + 16}", "bgp's verdict is the same"])
    it, after = opened("0200 4600", "0200 4600")
    borr = message(5, b"\0\1\1\1\0")
    scene("enhanced refresh", "a BoRR of 5 octets, a KEEPALIVE, 7/1 with the BoRR", pcap(it.say("A", borr, keepalive()).say("B", notification(7, 1, borr)).packets),
          [f"for {A}'s ROUTE-REFRESH at octet {after}; its data are the message at octet {after}", "bgp's verdict is the same"])
    it = Connection().open().say("A", message(OPEN, bytes.fromhex("03fdec005ac000020100"))).say("B", notification(2, 1, b"\0\4")).end("B")
    scene("an OPEN of version 3", "it is answered by 2/1", pcap(it.packets),
          [f"for {A}'s OPEN at octet 0; it is the last that bgp answers or notes",
           f"ended 2023-11-14 22:13:22.000: {B} sent NOTIFICATION 2/1 (OPEN Message Error: Unsupported Version Number), data 0004: it speaks version 4"])
    it = Connection().open().say("A", GOBGP[0]).say("B", OPENBGPD[0], notification(2, 2)).end("B")
    scene("a wrong AS number", "2/2 to a valid OPEN", pcap(it.packets), [f"for {A}'s OPEN at octet 0; it is the last OPEN before that"])
    it = up().say("A", GOBGP[0]).say("B", notification(5, 3, b"\1"))
    scene("an OPEN in Established", "a second OPEN, 5/3", pcap(it.packets), [f"for {A}'s OPEN at octet {AFTER}; its data are the Type at octet {AFTER + 18}"])
    it = up().say("B", notification(6, 1, bytes.fromhex("0001 01 00000005")))
    scene("too many prefixes", "6/1 with its limit", pcap(it.packets),
          [f"ended 2023-11-14 22:13:37.000: {B} sent NOTIFICATION 6/1 (Cease: Maximum Number of Prefixes Reached), data 00010100000005: "
           "it takes at most 5 prefixes of IPv4 unicast (1/1)"])


def unanswered():
    """Ends without a NOTIFICATION, and silence."""
    it = up().wait(80).say("B", keepalive()).wait(20).say("B", notification(4, 0))
    scene("a hold timer", "GoBGP falls silent, 4/0", pcap(it.packets), [f"hold timer: {A} had sent nothing for 108 seconds, and the Hold Time is 90"])
    it = up().say("A", BEYOND).end("B")
    scene("a FIN", "attributes beyond the UPDATE, and the other end closes without a word", pcap(it.packets),
          [f"ended 2023-11-14 22:13:38.000: {B} sent FIN without a NOTIFICATION",
           f"bgp on what {A} sent: 1 would be answered by a NOTIFICATION; as the UPDATE at octet {AFTER}, which bgp answers by 3/1"])
    it = up().end("A", RST | ACK)
    scene("a RST", "a healthy session is reset", pcap(it.packets),
          [f"ended 2023-11-14 22:13:37.000: {A} sent RST without a NOTIFICATION", f"bgp finds no fault in what {B} sent"])
    it = up().say("A", OF_FIVE)
    scene("no end", "COMMUNITIES of 5 octets, which the other end withdraws (RFC 7606)", pcap(it.packets),
          ["the capture ends at 2023-11-14 22:13:37.000, and the connection has no end in it",
           f"bgp on what {A} sent: 1 are treated as withdrawals; as the UPDATE at octet {AFTER}", f"bgp finds no fault in what {B} sent"])


def connections():
    """Connections over which little or nothing goes."""
    it = Connection()
    it.packet("A", SYN)
    it.packet("B", RST | ACK)
    refused = it.packets
    scene("refused", "a RST answers the SYN", pcap(refused), [f"refused by {B} (RST) at 2023-11-14 22:13:20.000, after 1 attempt"])
    it = Connection()
    for seconds in (1, 2, 4):
        it.packet("A", SYN, number=1000)
        it.wait(seconds)
    scene("no answer", "three SYNs", pcap(it.packets), ["no answer to 3 attempts, 2023-11-14 22:13:20.000 to 2023-11-14 22:13:23.000"])
    it.packets.append((it.time, packets.unreachable(it.packets[0][1], "192.0.2.9")))
    scene("no way", "the same, and a router says that it is prohibited", pcap(it.packets),
          [f"no answer to 3 attempts, 2023-11-14 22:13:20.000 to 2023-11-14 22:13:23.000; ICMP says that {B} can't be reached, code 13"])
    it = Connection().open().wait(5).end("B", RST | ACK)
    scene("nothing is said", "a connection over which no octet goes", pcap(it.packets),
          [f"{A} sent nothing", f"{B} sent nothing", f"ended 2023-11-14 22:13:26.000: {B} sent RST without a NOTIFICATION"])
    it = Connection().open().say("A", GOBGP[0]).wait(9).end("A")
    scene("an OPEN that stays alone", "the other end acknowledges it, and sends nothing", pcap(it.packets), [f"{B} sent nothing", "never came up in this capture"])
    it = up().say("A", OF_FIVE).say("B", notification(3, 5, FIVE))
    of_b = [one for one in it.packets if one[1][12:16] == bytes([192, 0, 2, 2])]
    scene("one direction alone", "of the fault and its answer the capture has one side", pcap(of_b),
          [f"only one direction was captured: nothing of {A}, of which up to {AFTER + len(OF_FIVE)} octets are acknowledged",
           f"for a message of {A} of which octets are missing, as it seems: bgp finds no fault in those that are whole"], never=r"at octet \d+;")
    of_a = [one for one in it.end("B").packets if one[1][12:16] == bytes([192, 0, 2, 1])]
    scene("the other direction alone", "of the same the capture has the other side", pcap(of_a),
          [f"only one direction was captured: nothing of {B}, of which up to 492 octets are acknowledged", f"octets of {B} are missing, among which one may be",
           "came up 2023-11-14 22:13:23.000, as far as one direction tells",
           f"bgp on what {A} sent: 1 are treated as withdrawals; as the UPDATE at octet {AFTER}"])
    web = Connection(ports=(40001, 80)).open().say("A", b"GET / HTTP/1.0\r\n\r\n").packets
    name = [(packets.BEGIN, packets.of_udp("192.0.2.1", "192.0.2.53", (40002, 53), bytes(12)))]
    scene("no BGP", "a web page, and a question for a name", pcap(web + name),
          ["no BGP: no packet of TCP port 179; ports that were seen, with their packets: tcp 80 (5), udp 53 (1)"], status=1)
    other = up(ports=(40000, 1790)).packets
    scene("another port", "a session of port 1790", pcap(other),
          [f"no BGP: no packet of TCP port 179; ports that were seen, with their packets: tcp 1790 ({len(other)}); "
           "octets of TCP port 1790 look like BGP: --port 1790"], status=1)
    down = shut_down(hosts=("192.0.2.3", "192.0.2.2")).packets
    scene("two sessions", "one is refused, the other is shut down", pcap(refused + down), [SHUT, f"refused by {B} (RST) at 2023-11-14 22:13:20.000, after 1 attempt"])


def gaps():
    """Octets that the capture lacks. The first octets of GoBGP's UPDATEs: 84, 166, 239, 298, 345, 425; those of its segments come each second time."""
    def lost(it, octets):
        return [one for one in it.packets if octets not in one[1]]
    it = up().say("A", OF_ORIGIN_5, SOUND).say("B", notification(3, 6, attribute(0x40, 1, b"\5")))
    scene("a lost segment with the fault", "an ORIGIN of 5, which the capture lacks, a valid UPDATE, 3/6", pcap(lost(it, OF_ORIGIN_5)),
          [f"for a message of {A} of which octets are missing, as it seems: bgp finds no fault in those that are whole",
           f"octets {AFTER} to {AFTER + len(OF_ORIGIN_5) - 1} of {A} are missing; reading resumes at octet {AFTER + len(OF_ORIGIN_5)}, 2023-11-14 22:13:38.000"],
          never=r"at octet \d+;")
    it = up().say("A", OF_FIVE).say("B", notification(3, 5, FIVE))
    scene("a lost segment before the fault", "GoBGP's third UPDATE is missing; then COMMUNITIES of 5 octets, 3/5", pcap(lost(it, GOBGP[4])),
          [f"for {A}'s UPDATE at octet {AFTER}; its data are the COMMUNITY at octet {AFTER + IN_FIVE}", f"{A} sent OPEN 1, KEEPALIVE 1, UPDATE 6",
           f"octets 239 to 297 of {A} are missing; reading resumes at octet 298, 2023-11-14 22:13:28.000", "or for one of which octets are missing: octets 239 to 297"])
    long = Connection().open().say("A", GOBGP[0]).say("B", OPENBGPD[0]).say("A", GOBGP[1]).say("B", OPENBGPD[1])
    long.say("A", *[SOUND] * 133, size=1000).say("B", notification(6, 2))
    scene("one of 133 UPDATEs", "the 27th is missing", pcap(long.packets[:11 + 52] + long.packets[11 + 53:]), [f"{A} sent OPEN 1, KEEPALIVE 1, UPDATE 132"])
    it = up().say("A", OF_ORIGIN_5).say("B", notification(3, 6))
    last = [one for one in it.packets if OF_ORIGIN_5 not in one[1]]
    scene("the last segment is missing", "an ORIGIN of 5 that was acknowledged, but not captured, 3/6", pcap(last),
          [f"for a message of {A} of which octets are missing, as it seems: bgp finds no fault in those that are whole",
           f"octets {AFTER} to {AFTER + len(OF_ORIGIN_5) - 1} of {A} are missing"], never=r"at octet \d+;")
    it = up().say("A", OF_FIVE).say("B", notification(3, 5))
    scene("cut at 80 octets", "of each packet 40 octets of BGP; COMMUNITIES of 5 octets, 3/5", pcap(it.packets, snap=80),
          ["the capture has only the first octets of each packet (snap length)",
           f"for a message of {A} of which octets are missing, as it seems: bgp finds no fault in those that are whole"], never=r"at octet \d+;")
    it = up().say("B", notification(3, 5, bytes.fromhex("c00810") + bytes(16)))
    scene("cut at 70 octets", "of each packet 30 octets of BGP, so of the data of a 3/5 nine", pcap(it.packets, snap=70),
          [f"ended 2023-11-14 22:13:37.000: {B} sent NOTIFICATION 3/5 (UPDATE Message Error: Attribute Length Error), data c00810000000000000, "
           "of which octets are missing"], never=r"at octet \d+;")
    scene("cut at 30 octets", "of each packet not even TCP's head", pcap(up().packets, snap=30),
          [f"no BGP can be read: {len(up().packets)} packets of TCP port 179 are cut inside their headers (snap length)"], status=1)
    # All in one segment, and the first 100 octets of it were sent before the capture: it begins inside GoBGP's first UPDATE, of which 66 remain.
    it = Connection().open()
    it.next["A"] += 100
    it.say("A", b"".join(GOBGP)[100:] + OF_FIVE).say("B", notification(3, 5, FIVE))
    scene("it begins inside a message", "COMMUNITIES of 5 octets, 3/5", pcap(it.packets[3:]),
          [f"for {A}'s UPDATE at octet {AFTER - 100}; its data are the COMMUNITY at octet {AFTER - 100 + IN_FIVE}", f"of {A} the capture has no beginning",
           "reading resumes at octet 66, 2023-11-14 22:13:21.000, 66 passed over", "was there before the capture begins"])
    it = up().say("A", *GOBGP[2:]).end("A")
    scene("it begins in the middle", "one side only acknowledges, the other sends UPDATEs", pcap(it.packets[-2 * len(GOBGP[2:]) - 3:]),
          [f"{B} sent nothing", f"{A} sent UPDATE 6", "was there before the capture begins"])


def contexts():
    """What both agree on, and what isn't known of it."""
    narrow = up(EXABGP, BIRD).say("A", *EXABGP[2:8])
    scene("no OPEN, AS numbers of two octets", "UPDATEs of ExaBGP and BIRD, of which 4 have no AS_PATH", pcap(narrow.packets[11:]),
          ["AS numbers of two octets are a guess, since an OPEN is missing: so 0 of 29 UPDATEs are at fault, with four 25"])
    local = update(ORIGIN + path([65010]) + HOP + attribute(0x40, 5, b"\0\0\0\x64"), NEW)
    it = up().say("A", *[local] * 3)
    scene("no OPEN, one AS", "three UPDATEs with LOCAL_PREF, which external peers don't send", pcap(it.packets[-6:]),
          ["that both are of one AS is a guess: else 3 of 3 UPDATEs are at fault",
           "AS numbers of four octets are a guess, since an OPEN is missing: so 0 of 3 UPDATEs are at fault, with two 3", f"bgp finds no fault in what {A} sent"])
    it, after = opened("0600", "0600")
    scene("extended messages, offered only", "both offer them, none is longer than 4096 octets; attributes beyond the UPDATE, 3/1",
          pcap(it.say("A", BEYOND).say("B", notification(3, 1)).packets), [f"for {A}'s UPDATE at octet {after}; it is the last that bgp answers or notes",
                                                                         "bgp's verdict is the same"])
    it, after = opened("0600", "0600")
    huge = update(ORIGIN + PATH + HOP + attribute(0xC0, 99, bytes(5000)), NEW)
    scene("extended messages, used", "an UPDATE of 5051 octets, then attributes beyond the UPDATE, 3/1",
          pcap(it.say("A", huge, BEYOND).say("B", notification(3, 1)).packets),
          [f"for {A}'s UPDATE at octet {after + len(huge)}; it is the last that bgp answers or notes", f"of {A} messages are passed over: 1 above 4096 octets"])
    it, after = opened("4504 00010102", "4504 00010101")
    paths = f"both OPENs agree on path identifiers (RFC 7911) in what {A} sends"
    numbered, cut = update(ORIGIN + PATH + HOP, b"\0\0\0\1" + NEW), update(ORIGIN + PATH + HOP, b"\0\0\0\1")
    scene("path identifiers", "both agree on them; 3/10 for an UPDATE with one", pcap(it.say("A", numbered).say("B", notification(3, 10)).packets),
          [f"for {A}'s UPDATE at octet {after}; it is the last UPDATE before that", paths, "it is accepted by bgp: theirs 3/10, ours none"])
    it, after = opened("4504 00010102", "4504 00010101")
    scene("path identifiers, no prefix", "both agree on them, one has no prefix; 3/10", pcap(it.say("A", numbered, cut).say("B", notification(3, 10)).packets),
          [f"for {A}'s UPDATE at octet {after + len(numbered)}; it is the last that bgp answers or notes", paths, "bgp's verdict is the same"])
    it, after = opened("4504 00010101", "4504 00010102")
    scene("path identifiers, the other way", "of what OpenBGPD sends both agree on them; attributes of GoBGP's beyond the UPDATE, 3/1",
          pcap(it.say("A", BEYOND).say("B", notification(3, 1)).packets),
          [f"for {A}'s UPDATE at octet {after}; it is the last that bgp answers or notes", paths.replace(A, B)])
    it, after = opened("4504 00010102", "4505 0001010100")
    scene("path identifiers, malformed", "one capability has 5 octets, and counts for nothing; 3/1",
          pcap(it.say("A", BEYOND).say("B", notification(3, 1)).packets), [f"for {A}'s UPDATE at octet {after}; it is the last that bgp answers or notes"],
          never="RFC 7911")
    it, after = opened("0104 00010080", "0104 00010080")
    vpn = update(ORIGIN + PATH + attribute(0x80, 14, bytes.fromhex("0001 80 0c 0000000000000000c0000201 00")))
    scene("a family that isn't read", "two UPDATEs of VPN-IPv4, then attributes beyond the UPDATE, 3/1",
          pcap(it.say("A", vpn, vpn, BEYOND).say("B", notification(3, 1)).packets),
          [f"for {A}'s UPDATE at octet {after + 2 * len(vpn)}; it is the last that bgp answers or notes",
           f"UPDATEs of {A} are of VPN-IPv4 (1/128), which isn't read: 2"])
    it, after = opened("0506 000100010002", "0506 000100010002")
    over6 = update(ORIGIN + PATH + attribute(0x80, 14, bytes.fromhex("0001 01 10 20010db8000000000000000000000001 00") + NEW))
    scene("IPv6 next hops of IPv4 routes", "both agree on them, one is sent; a RST", pcap(it.say("A", over6).end("B", RST | ACK).packets),
          [f"of {A} messages are passed over: 1 with an IPv6 next hop of IPv4 routes (RFC 8950)", f"bgp finds no fault in what {A} sent"])


for part in (shapes, answered, unanswered, connections, gaps, contexts):
    part()
