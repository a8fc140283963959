"""Tests of terms and of ROUTE-REFRESH: `python3 -m unittest` in this folder, where RISTULVA_LIBRARY names the library by an absolute path."""

import copy
import ctypes
import dataclasses
import gc
import ipaddress
import pickle
import resource
import sys
import unittest
import warnings

import ristulva
from ristulva import Refreshes, Subtype, Terms

MARKER = b"\xff" * 16
BOTH = ristulva.Context(as4=True, ip4=True, ip6=True)
NONE, PLAIN, ENHANCED = (Terms(BOTH, it) for it in Refreshes)


def message(kind, body):
    return MARKER + (19 + len(body)).to_bytes(2, "big") + bytes([kind]) + body


def refresh(digits):
    return message(5, bytes.fromhex(digits))


def opened(*capabilities):
    """An OPEN of AS 65001, 90 seconds, 192.0.2.1, with one parameter."""
    row = bytes.fromhex("".join(capabilities))
    return message(1, bytes.fromhex("04fde9005ac0000201") + bytes([len(row) + 2, 2, len(row)]) + row)


IP4, IP6, REFRESH, ENHANCED_REFRESH, LONG = "010400010001", "010400020001", "0200", "4600", "0600"
HOP6, PATHS4, PATHS6 = "0506000100010002", "450400010103", "450400020103"
KEEPALIVE, REQUEST, BORR = message(4, b""), refresh("00010001"), refresh("00010101")
# 10.0.0.0/8 by the path 70000 65001, next hop 192.0.2.1.
UPDATE = message(2, bytes.fromhex("0000" + "0018" + "40010100" + "40020a0202000111700000fde9" + "400304c0000201" + "080a"))
# The same with 2001:db8::/32, and with path identifiers 9 and 1.
SHARED, HOP = "40010100" + "40020a0202000111700000fde9" + "400304c0000201", "000201" + "10" + "20010db8000000000000000000000001" + "00"
PLAIN_UPDATE = message(2, bytes.fromhex("0000" + "0035" + SHARED + "800e1a" + HOP + "2020010db8" + "080a"))
IDENTIFIED = message(2, bytes.fromhex("0000" + "0039" + SHARED + "800e1e" + HOP + "00000009" + "2020010db8" + "00000001" + "080a"))
STREAM = opened(IP4, IP6, REFRESH) + KEEPALIVE + REQUEST + UPDATE + BORR + refresh("0002020101") + KEEPALIVE


class Agreements(unittest.TestCase):
    def agreed(self, reader, sender, **wanted):
        """The terms of both, beyond IPv4 unicast and the same AS, and the Hold Time."""
        context = ristulva.Context(internal=True, ip4=True)
        self.assertEqual(ristulva.terms_of(opened(IP4, *reader), opened(IP4, *sender)), (Terms(context, **wanted), 90))

    def test_refresh(self):
        """The reader decides on requests (RFC 2918, section 4), and both on marks (RFC 7313, section 4)."""
        self.agreed([], [])
        self.agreed([], [REFRESH, ENHANCED_REFRESH])
        self.agreed([REFRESH], [], refresh=1)
        self.agreed([REFRESH], [ENHANCED_REFRESH], refresh=1)
        self.agreed([REFRESH, ENHANCED_REFRESH], [REFRESH], refresh=1)
        self.agreed([ENHANCED_REFRESH], [REFRESH, ENHANCED_REFRESH])
        self.agreed([REFRESH, ENHANCED_REFRESH], [ENHANCED_REFRESH], refresh=2)

    def test_others(self):
        self.agreed([LONG], [], long_messages=True)
        self.agreed([], [LONG], long_back=True)
        self.agreed([HOP6], [], hop6=True)
        self.agreed([], [HOP6])
        self.agreed([PATHS4], [PATHS4, PATHS6], paths4=True)
        self.agreed([PATHS6, PATHS4], [PATHS6], paths6=True)
        self.agreed([PATHS4], [PATHS6])

    def test_context(self):
        """Context and Hold Time are those of `agree`, and octets after the OPENs have no effect."""
        reader, sender = opened(IP4, IP6, REFRESH), opened(IP6, "41040003eb41") + KEEPALIVE
        self.assertEqual(ristulva.terms_of(reader, bytearray(sender)), (Terms(ristulva.Context(internal=True, ip6=True), Refreshes.PLAIN), 90))
        self.assertEqual(ristulva.agree(reader, sender), (ristulva.Context(internal=True, ip6=True), 90))

    def test_refused(self):
        for one, other in ((b"", opened()), (opened(), opened()[:-1]), (KEEPALIVE, opened()), (opened(), message(1, bytes(10)))):
            self.assertIsNone(ristulva.terms_of(one, other))
        self.assertRaises(TypeError, ristulva.terms_of, "octets", opened())


class Values(unittest.TestCase):
    def test_truth(self):
        """Of each flag its truth counts, also of a number that C has no room for; and of `refresh` its number."""
        for yes in (1, 256, "no"):
            self.assertEqual(Terms(hop6=yes, long_back=yes), Terms(hop6=True, long_back=True))
        self.assertEqual(Terms(refresh=2), Terms(refresh=Refreshes.ENHANCED))
        self.assertIs(Terms(refresh=1).refresh, Refreshes.PLAIN)
        for other in (3, 255, 256, -1, "plain", None):
            self.assertRaises(ValueError, Terms, refresh=other)
        self.assertEqual(Terms(), Terms(ristulva.Context(), Refreshes.NONE, False, False, False, False, False))

    def test_paths(self):
        """A message is read without path identifiers, and each route has its own, in the families that have them (RFC 7911, section 3)."""
        both = Terms(BOTH, 2, paths4=True, paths6=True)
        self.assertEqual((both.has_paths(), Terms(BOTH, 2).has_paths(), both.plain()), (True, False, Terms(BOTH, 2)))
        it = ristulva.judge(IDENTIFIED, both, 7)
        self.assertEqual((it.verdict, it.terms, it.octets, it.received, len(it)), ("update", both, PLAIN_UPDATE, IDENTIFIED, len(PLAIN_UPDATE)))
        wanted = [("2001:db8::/32", 9), ("10.0.0.0/8", 1)]
        self.assertEqual(it.routes(), [ristulva.Route(ipaddress.ip_network(prefix), True, path) for prefix, path in wanted])
        self.assertEqual(str(it), str(ristulva.judge(PLAIN_UPDATE, BOTH, 7)))
        for back in (pickle.loads(pickle.dumps(it)), copy.copy(it), copy.deepcopy(it)):
            self.assertEqual((back, back.routes()), (it, it.routes()))
        self.assertNotEqual(it, ristulva.judge(PLAIN_UPDATE, both.plain(), 7))

    def test_paths_of_streams(self):
        """Offsets are those of the stream as it was received; a ROUTE-REFRESH, an incomplete message and a header with a fault are as they are."""
        both = Terms(BOTH, 1, paths4=True, paths6=True)
        found = list(ristulva.messages(KEEPALIVE + IDENTIFIED + REQUEST + IDENTIFIED, both))
        self.assertEqual([it.verdict for it in found], ["keepalive", "update", "refresh", "update"])
        self.assertEqual([it.place for it in found], [0, 19, 19 + len(IDENTIFIED), 42 + len(IDENTIFIED)])
        self.assertEqual((found[2].refresh(), found[2].received), (ristulva.Refresh(1, 1, 0, b""), REQUEST))
        self.assertEqual((found[0].routes(), found[0].octets), ([], KEEPALIVE))
        for size in range(len(IDENTIFIED)):
            self.assertIsNone(ristulva.judge(IDENTIFIED[:size], both))
        it = ristulva.judge(REQUEST + KEEPALIVE, Terms(BOTH, paths6=True))
        self.assertEqual((it.notification, it.octets, it.received), ((1, 3, b"\x05"), REQUEST[:19], REQUEST[:19]))
        # An identifier without a prefix (RFC 7606, section 5.3).
        cut = message(2, bytes.fromhex("0004" + "00000001" + "0000"))
        it = ristulva.judge(cut + KEEPALIVE, both)
        self.assertEqual((it.verdict, it.notification[:2], it.received, it.routes()), ("reset", (3, 10), cut, []))
        # In an attribute: that is the data, as it was received (RFC 7606, section 7.12).
        attribute = bytes.fromhex("800f07" + "000201" + "00000001")
        it = ristulva.judge(message(2, bytes.fromhex("0000000a") + attribute), both)
        self.assertEqual(it.notification, (3, 9, attribute))

    def test_path_of_a_family(self):
        """Each family for itself (RFC 7911, section 4): a route of the other one has none."""
        it = ristulva.judge(message(2, UPDATE[19:-2] + bytes.fromhex("00000000" + "080a")), Terms(BOTH, paths4=True))
        self.assertEqual([(str(route.prefix), route.path) for route in it.routes()], [("10.0.0.0/8", 0)])
        it = ristulva.judge(UPDATE, Terms(BOTH, paths6=True))
        self.assertEqual([(str(route.prefix), route.path) for route in it.routes()], [("10.0.0.0/8", None)])
        self.assertEqual([route.path for route in ristulva.judge(UPDATE, BOTH).routes()], [None])

    def test_messages(self):
        """A message by terms is a value too, and another than that in their context."""
        it = ristulva.judge(REQUEST, PLAIN, 7)
        self.assertEqual((it.terms, it.context, it.place, len(it)), (PLAIN, BOTH, 7, 23))
        self.assertEqual((repr(it), str(it)), ("<ristulva.Message: refresh, 23 octets at 7>", "7 23 ROUTE-REFRESH request 1 1\n"))
        for back in (pickle.loads(pickle.dumps(it)), copy.copy(it), copy.deepcopy(it)):
            self.assertEqual((back, back.refresh(), str(back)), (it, it.refresh(), str(it)))
        one, other = ristulva.judge(KEEPALIVE, PLAIN), ristulva.judge(KEEPALIVE, BOTH)
        self.assertNotEqual(one, other)
        self.assertIsNone(other.terms)
        self.assertEqual(len({it, copy.copy(it), one, other}), 3)

    def test_contexts(self):
        """Calls that read no ROUTE-REFRESH take no terms."""
        for call in (ristulva.encode, ristulva.narrow, ristulva.reconcile):
            self.assertRaises(ctypes.ArgumentError, call, bytes(4), PLAIN)


class Refreshed(unittest.TestCase):
    def says(self, octets, terms, afi, safi, subtype, line, rest=b""):
        """What a ROUTE-REFRESH says, and the line that `bgp show` prints."""
        it = ristulva.judge(octets, terms)
        self.assertEqual((it.verdict, it.notification, it.octets), ("refresh", None, octets))
        self.assertEqual(it.refresh(), ristulva.Refresh(afi, safi, subtype, rest))
        self.assertEqual(str(it), f"0 {len(octets)} ROUTE-REFRESH {line}\n")

    def test_requests(self):
        self.says(REQUEST, PLAIN, 1, 1, Subtype.REQUEST, "request 1 1")
        self.says(REQUEST, ENHANCED, 1, 1, Subtype.REQUEST, "request 1 1")
        self.says(refresh("fffe0080"), PLAIN, 65534, 128, 0, "request 65534 128")
        self.says(BORR, PLAIN, 1, 1, 0, "request 1 1")
        self.says(refresh("0001020100"), PLAIN, 1, 1, 0, "request 1 1", rest=b"\0")

    def test_marks(self):
        self.says(BORR, ENHANCED, 1, 1, Subtype.BEGIN, "begin 1 1")
        self.says(refresh("00020201"), ENHANCED, 2, 1, Subtype.END, "end 2 1")
        self.says(refresh("00010301"), ENHANCED, 1, 1, 3, "ignored 3 1 1")
        self.says(refresh("0001ff010102"), ENHANCED, 1, 1, 255, "ignored 255 1 1", rest=b"\1\2")

    def test_longest(self):
        self.says(refresh("00010001" + "07" * 4073), ENHANCED, 1, 1, 0, "request 1 1", rest=b"\7" * 4073)

    def resets(self, octets, terms, notification, line):
        it = ristulva.judge(octets, terms)
        self.assertEqual((it.verdict, it.notification, it.refresh()), ("reset", notification, None))
        self.assertEqual(str(it), f"0 {line}\n")
        return it

    def test_resets(self):
        """A body that is too short (RFC 4271, section 6.1), a mark of another length than four octets (RFC 7313, section 5), and no offer."""
        short, mark = refresh("000101"), refresh("0001010100")
        self.assertEqual(self.resets(short, PLAIN, (1, 2, b"\0\x16"), "22 HEADER reset 1/2 0016").octets, short)
        self.resets(short, ENHANCED, (7, 1, short), f"22 ROUTE-REFRESH reset 7/1 {short.hex()}")
        self.resets(mark, ENHANCED, (7, 1, mark), f"24 ROUTE-REFRESH reset 7/1 {mark.hex()}")
        self.resets(message(5, b""), ENHANCED, (1, 2, b"\0\x13"), "19 HEADER reset 1/2 0013")
        long = refresh("00010101" + "00" * 4073)
        self.resets(long, ENHANCED, (7, 1, long[:4075]), f"4096 ROUTE-REFRESH reset 7/1 {long[:4075].hex()}")
        self.assertEqual(self.resets(REQUEST, NONE, (1, 3, b"\5"), "0 HEADER reset 1/3 05").octets, REQUEST[:19])
        self.assertEqual(ristulva.judge(REQUEST, BOTH).notification, (1, 3, b"\5"))

    def test_others(self):
        """No other message has a refresh, and a ROUTE-REFRESH none of what others have."""
        self.assertIsNone(ristulva.judge(KEEPALIVE, PLAIN).refresh())
        for it in (ristulva.judge(REQUEST, PLAIN), ristulva.judge(message(5, b""), PLAIN)):
            self.assertEqual([it.notes(), it.attributes(), it.announced(), it.withdrawn(), it.routes(), it.communities()], [[]] * 6)
            self.assertEqual((it.open(), it.facts(), it.as_path()), (None, None, None))
            for call in (it.fields, it.fault, it.fault_section, it.clean):
                self.assertRaises(ValueError, call)
        it = ristulva.judge(REQUEST, NONE)
        self.assertEqual((it.fault(), it.fault_section()), (ristulva.judge(REQUEST, BOTH).fault(), "RFC 4271, section 6.1"))

    def test_streams(self):
        octets = KEEPALIVE + BORR + KEEPALIVE + refresh("00010201")[:22]
        for terms, wanted in ((ENHANCED, ["keepalive", "refresh", "keepalive"]), (NONE, ["keepalive", "reset"])):
            with warnings.catch_warnings(record=True) as told:
                warnings.simplefilter("always")
                found = list(ristulva.messages(memoryview(octets), terms))
            self.assertEqual([it.verdict for it in found], wanted)
            self.assertEqual([it.place for it in found], [0, 19, 42][: len(wanted)])
            self.assertEqual([it.category for it in told], [ristulva.Incomplete] if terms is ENHANCED else [])

    def test_written(self):
        self.assertEqual(ristulva.encode_refresh(1, 1), REQUEST)
        self.assertEqual(ristulva.encode_refresh(1, 1, Subtype.BEGIN), BORR)
        self.assertEqual(ristulva.encode_refresh(0xFFFF, 0xFF, 0xFF), refresh("ffffffff"))
        for numbers in ((0x10000, 1, 0), (-1, 1, 0), (1, 256, 0), (1, 1, 256), (1, 1, -1)):
            self.assertRaises(ValueError, ristulva.encode_refresh, *numbers)
        it = ristulva.judge(ristulva.encode_refresh(2, 1, Subtype.END), ENHANCED)
        self.assertEqual(dataclasses.astuple(it.refresh()), (2, 1, Subtype.END, b""))


def told(it):
    """All that a message reports."""
    return it, it.terms, bytes(it.found), it.data, str(it), it.notification, it.refresh(), list(map(str, it.announced()))


def in_pieces(octets, terms, cuts):
    found = []
    with ristulva.Decoder(terms) as decoder:
        for at, end in zip([0, *cuts], [*cuts, len(octets)]):
            found += map(told, decoder.feed(octets[at:end]))
    return found


class Pieces(unittest.TestCase):
    """A stream in pieces by terms is what it is whole."""

    def test_each_cut(self):
        """The last two of STREAM aren't read where marks are accepted: the first of them is too long."""
        kinds = ["open", "keepalive", "refresh", "update", "refresh", "refresh", "keepalive"]
        for terms, wanted in ((PLAIN, kinds), (ENHANCED, [*kinds[:5], "reset"]), (NONE, [*kinds[:2], "reset"])):
            whole = [told(it) for it in ristulva.messages(STREAM, terms)]
            self.assertEqual([it[0].verdict for it in whole], wanted)
            self.assertEqual(in_pieces(STREAM, terms, []), whole)
            self.assertEqual(in_pieces(STREAM, terms, range(1, len(STREAM))), whole)
            for cut in range(len(STREAM)):
                with self.subTest(terms=terms, cut=cut):
                    self.assertEqual(in_pieces(STREAM, terms, [cut]), whole)

    def test_others(self):
        """Without a ROUTE-REFRESH the outcomes are those of a decoder in the context, whatever is accepted."""
        octets = opened(IP4) + KEEPALIVE + UPDATE + message(3, b"\6\2bye") + message(9, b"")
        with ristulva.Decoder(BOTH) as decoder:
            wanted = [(it.place, it.octets, str(it), it.notification) for it in decoder.feed(octets)]
        for terms in (NONE, PLAIN, ENHANCED):
            with ristulva.Decoder(terms) as decoder:
                self.assertEqual([(it.place, it.octets, str(it), it.notification) for it in decoder.feed(octets)], wanted)

    def test_held(self):
        with ristulva.Decoder(PLAIN) as decoder:
            self.assertEqual((decoder.feed(REQUEST[:21]), decoder.held), ([], 21))
            (it,) = decoder.feed(bytearray(REQUEST[21:]))
            self.assertEqual((it.verdict, it.octets, it.refresh(), it.terms), ("refresh", REQUEST, ristulva.Refresh(1, 1, 0, b""), PLAIN))
            self.assertEqual((decoder.held, decoder.taken, repr(decoder)), (0, 23, "<ristulva.Decoder: open>"))
            longest = refresh("00010001" + "07" * 4073)
            self.assertEqual([it.refresh().rest for it in decoder.feed(longest * 3 + longest[:-1])], [b"\7" * 4073] * 3)
            self.assertEqual(decoder.held, 4095)

    def test_behind_a_reset(self):
        """A ROUTE-REFRESH that is refused stops it, and so does one that nobody offered: nothing after it is read."""
        short, mark = refresh("000101"), refresh("0001010100")
        for bad, terms, code in ((mark, ENHANCED, (7, 1)), (short, ENHANCED, (7, 1)), (short, PLAIN, (1, 2)), (REQUEST, NONE, (1, 3))):
            for cut in range(len(bad)):
                with self.subTest(bad.hex(), cut=cut), ristulva.Decoder(terms) as decoder:
                    found = decoder.feed(KEEPALIVE + bad[:cut]) + decoder.feed(bad[cut:] + KEEPALIVE)
                    self.assertEqual([it.verdict for it in found], ["keepalive", "reset"])
                    self.assertEqual((found[1].notification[:2], found[1].place, found[1].terms), (code, 19, terms))
                    self.assertEqual((decoder.feed(KEEPALIVE), decoder.feed(REQUEST), decoder.held), ([], [], 0))

    def test_paths(self):
        for terms in (Terms(paths4=True), Terms(refresh=2, paths6=True)):
            self.assertRaisesRegex(ValueError, "path identifiers", ristulva.Decoder, terms)

    def test_closed(self):
        with ristulva.Decoder(PLAIN) as decoder:
            decoder.feed(REQUEST[:9])
        decoder.close()
        self.assertEqual(repr(decoder), "<ristulva.Decoder: closed>")
        self.assertRaises(ristulva.DecoderClosed, decoder.feed, REQUEST)
        self.assertRaises(ristulva.DecoderClosed, lambda: decoder.held)
        self.assertRaises(ristulva.DecoderClosed, lambda: decoder.taken)

    def test_freed(self):
        """What nothing refers to is freed: 40,000 decoders would be some 180 MB."""
        before = resource.getrusage(resource.RUSAGE_SELF).ru_maxrss
        for _ in range(40_000):
            ristulva.Decoder(PLAIN)
        gc.collect()
        unit = 1 if sys.platform == "darwin" else 1024
        self.assertLess((resource.getrusage(resource.RUSAGE_SELF).ru_maxrss - before) * unit, 40_000_000)


if __name__ == "__main__":
    unittest.main()
