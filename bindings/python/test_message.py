"""Tests of messages, on the captures of examples/: `python3 -m unittest` in this folder, where RISTULVA_LIBRARY names the library by an absolute path."""

import array
import copy
import ctypes
import ipaddress
import pathlib
import pickle
import unittest
import warnings

import ristulva

EXAMPLES = pathlib.Path(__file__).resolve().parents[2] / "examples"
MARKER = b"\xff" * 16


def message(kind, body):
    return MARKER + (19 + len(body)).to_bytes(2, "big") + bytes([kind]) + body


# 10.0.0.0/8 by way of AS 65000 and 200000, and of 192.0.2.1.
BODY = bytes.fromhex("0000" + "001f" + "40010100" + "40020a02020000fde800030d40" + "400304c0000201" + "c0080400010002" + "080a")


class Captures(unittest.TestCase):
    def test_lines(self):
        """The lines of each capture are those beside it."""
        for path in sorted(EXAMPLES.glob("*.hex")):
            flags = path.with_suffix(".flags")
            said = {flag[2:]: True for flag in flags.read_text().split()} if flags.exists() else {}
            context = ristulva.Context(**said)
            lines = "".join(str(it) for it in ristulva.messages(bytes.fromhex(path.read_text()), context))
            with self.subTest(path.name):
                wanted = path.with_suffix(".txt").read_text()
                self.assertEqual(lines, wanted[: wanted.rindex("end ")])


class Values(unittest.TestCase):
    """Messages are values, and what they give are lists."""

    context = ristulva.Context(as4=True)
    update = ristulva.judge(message(2, BODY), context)

    def test_equal(self):
        """Octets, context and offset make a message, by what it is judged as."""
        self.assertEqual(self.update, ristulva.judge(message(2, BODY), self.context))
        self.assertEqual(hash(self.update), hash(ristulva.judge(message(2, BODY), self.context)))
        made = ((BODY, ristulva.Context(), 0), (BODY, self.context, 19), (bytes(4), self.context, 0))
        others = [ristulva.judge(message(2, body), context, place) for body, context, place in made]
        for other in [*others, self.update.octets, None]:
            self.assertNotEqual(self.update, other)
        self.assertEqual(len({self.update, copy.copy(self.update), *others}), 4)

    def test_told(self):
        self.assertEqual(repr(self.update), "<ristulva.Message: update, 56 octets at 0>")
        self.assertEqual(len(self.update), 56)
        self.assertEqual(repr(ristulva.judge(MARKER + bytes.fromhex("001204"), self.context, 7)), "<ristulva.Message: reset, 19 octets at 7>")

    def test_pickled(self):
        """A message is restored unchanged, also a header with a fault, and what a session judged by its state."""
        with ristulva.Session(ristulva.Config(65001, 65002, "192.0.2.1")) as session:
            session.event(ristulva.Event.START)
            session.event(ristulva.Event.CONNECTED)
            heard = session.hear(message(4, b"")).message
        self.assertEqual(heard.notification, (5, 1, b"\x04"))
        for it in (self.update, ristulva.judge(MARKER + bytes.fromhex("001204"), self.context, 7), heard):
            for back in (pickle.loads(pickle.dumps(it)), copy.copy(it), copy.deepcopy(it)):
                self.assertEqual((back, back.notification, str(back)), (it, it.notification, str(it)))

    def test_lists(self):
        """Their truth and their length are those of what is in them, however often they are read."""
        keepalive = ristulva.judge(message(4, b""), self.context)
        for name, count in (("announced", 1), ("withdrawn", 0), ("attributes", 4), ("notes", 0), ("communities", 1)):
            given = getattr(self.update, name)()
            self.assertEqual((type(given), len(given), bool(given)), (list, count, count > 0))
            self.assertEqual(getattr(keepalive, name)(), [])

    def test_routes(self):
        """Those of an UPDATE by what it is judged as, and IPv6 routes that are lost."""
        six = bytes.fromhex("0000" + "0038" + "40010100" + "40020602010000fde8" + "800e1a0002011020010db800000000000000000000000100" + "2020010db8" + "800f08000201"
                            + "2020010db9" + "08" + "0a")
        four, five = ipaddress.ip_network("10.0.0.0/8"), [ipaddress.ip_network(it) for it in ("2001:db9::/32", "2001:db8::/32")]
        six = six[:2] + (len(six) - 6).to_bytes(2, "big") + six[4:]
        both = ristulva.Context(as4=True, ip6=True)
        route = ristulva.Route
        self.assertEqual(self.update.routes(), [route(four, True)])
        treated = ristulva.judge(message(2, BODY[:7] + b"\3" + BODY[8:]), self.context)
        self.assertEqual((treated.verdict, treated.routes()), ("withdraw", [route(four, False)]))
        it = ristulva.judge(message(2, six), both)
        self.assertEqual((it.verdict, it.routes()), ("withdraw", [route(five[0], False), route(five[1], False), route(four, False)]))
        self.assertEqual(ristulva.judge(message(4, b""), both).routes(), [])
        for context, told in ((both, []), (self.context, [ristulva.FamilyNotAgreed])):
            with warnings.catch_warnings(record=True) as found:
                warnings.simplefilter("always")
                ristulva.judge(message(2, six), context).routes()
            self.assertEqual([it.category for it in found], told)

    def test_incomplete(self):
        """A stream that ends inside a message is reported; one that ends after a message isn't, nor what follows a reset."""
        whole, faulty = message(2, BODY) + message(4, b""), message(1, bytes.fromhex("03fde80000c000020100"))
        for octets, rest in ((whole, 0), (b"", 0), (faulty + whole[:30], 0), (whole + whole[:30], 30), (whole[:1], 1)):
            with warnings.catch_warnings(record=True) as told:
                warnings.simplefilter("always")
                [*ristulva.messages(octets, self.context)]
            wanted = [f"the stream ends inside a message, of which it has {rest} octets"] if rest else []
            self.assertEqual([str(it.message) for it in told if it.category is ristulva.Incomplete], wanted)


class Opens(unittest.TestCase):
    context = ristulva.Context()

    def test_fields(self):
        """Four capabilities in one parameter, and each in one of its own, with one that is empty (RFC 5492, section 4)."""
        fixed = bytes.fromhex("04" + "5ba0" + "005a" + "c0000202")
        caps = [bytes.fromhex(it) for it in ("010400010001", "0200", "410400020001", "010400020001")]
        for parameters in ([b"".join(caps)], [b"", *caps]):
            field = b"".join(b"\x02" + bytes([len(it)]) + it for it in parameters)
            it = ristulva.judge(message(1, fixed + bytes([len(field)]) + field), self.context).open()
            self.assertEqual((it.as_number, it.as_field, it.hold_time), (131073, 23456, 90))
            self.assertEqual(it.identifier, ipaddress.IPv4Address("192.0.2.2"))
            self.assertEqual((it.as4, it.ip4, it.ip6), (True, True, True))
            self.assertEqual(it.capabilities, [(cap[0], cap[2:]) for cap in caps])

    def test_plain(self):
        """Without parameters My Autonomous System is the AS number."""
        it = ristulva.judge(message(1, bytes.fromhex("04fde80000c000020100")), self.context).open()
        self.assertEqual((it.as_number, it.as_field, it.hold_time, it.capabilities), (65000, 65000, 0, []))
        self.assertEqual((it.as4, it.ip4, it.ip6), (False, False, False))

    def test_refused(self):
        """A Hold Time of 2 seconds (RFC 4271, section 6.2), and another message."""
        self.assertIsNone(ristulva.judge(message(1, bytes.fromhex("04fde80002c000020100")), self.context).open())
        self.assertIsNone(ristulva.judge(message(4, b""), self.context).open())

    def test_captures(self):
        """What an OPEN says is in its lines."""
        for path in sorted(EXAMPLES.glob("*.hex")):
            for it in ristulva.messages(bytes.fromhex(path.read_text()), self.context):
                with self.subTest(path.name):
                    self.assertEqual(it.open() is not None, it.verdict == "open")
                    if it.open():
                        self.assertEqual(lines_of(it.open()), str(it).splitlines()[1:])


def lines_of(it):
    """The lines that `bgp show` prints of an OPEN."""
    lines = [f"  as {it.as_field}", f"  hold {it.hold_time}", f"  id {it.identifier}"]
    for code, value in it.capabilities:
        if code == 1:
            lines.append(f"  cap multi {int.from_bytes(value[:2], 'big')} {value[3]}")
        elif code == 65:
            lines.append(f"  cap as4 {int.from_bytes(value, 'big')}")
        else:
            lines.append(f"  cap {code} {value.hex() or '-'}")
    return lines


class Buffers(unittest.TestCase):
    """Octets in buffers of all kinds: what counts is the octets, whatever the elements are."""

    context = ristulva.Context(as4=True)
    # As often as makes them elements of two, four and eight octets too.
    octets = (message(4, b"") + message(2, BODY) + message(3, b"\x06\x02")) * 8

    def buffers(self):
        yield from (self.octets, bytearray(self.octets), memoryview(self.octets), array.array("B", self.octets), array.array("b", self.octets))
        yield from (array.array(code, self.octets) for code in "HIQ")
        yield from (memoryview(self.octets).cast(code) for code in "cbHQ")
        yield memoryview(self.octets).cast("B", (len(self.octets) // 8, 8))
        yield memoryview(bytes(it for octet in self.octets for it in (octet, 0)))[::2]
        for kind, size in ((ctypes.c_uint16, 2), (ctypes.c_int8, 1)):
            yield (kind * (len(self.octets) // size)).from_buffer_copy(self.octets)

    def test_messages(self):
        wanted = [(it.place, it.octets) for it in ristulva.messages(self.octets, self.context)]
        self.assertEqual(len(wanted), 24)
        for buffer in self.buffers():
            with self.subTest(repr(buffer)[:50]):
                self.assertEqual([(it.place, it.octets) for it in ristulva.messages(buffer, self.context)], wanted)
                self.assertEqual(ristulva.judge(buffer, self.context).octets, wanted[0][1])
                with ristulva.Decoder(self.context) as decoder:
                    self.assertEqual([(it.place, it.octets) for it in decoder.feed(buffer)], wanted)

    def test_numpy(self):
        try:
            import numpy
        except ImportError:
            self.skipTest("numpy isn't there")
        for kind in ("u1", "i1", "<u2", ">u2", "<u8"):
            buffer = numpy.frombuffer(self.octets, kind)
            with self.subTest(kind):
                self.assertEqual(len(list(ristulva.messages(buffer, self.context))), 24)

    def test_bodies(self):
        for body in (bytearray(BODY), memoryview(BODY), array.array("B", BODY)):
            self.assertEqual(ristulva.encode(body, self.context), message(2, BODY))
        self.assertRaises(TypeError, ristulva.encode, len(BODY), self.context)

    def test_changes(self):
        """Between two messages nothing holds the caller's buffer: it may get longer."""
        octets = bytearray(message(4, b"") * 2)
        for it in ristulva.messages(octets, self.context):
            if len(octets) < 100:
                octets += message(4, b"")
        self.assertEqual((it.place, len(octets)), (95, 114))

    def test_others(self):
        for it in ("octets", 19, None, [255] * 19):
            self.assertRaises(TypeError, ristulva.judge, it, self.context)
            with self.assertRaises(TypeError):
                list(ristulva.messages(it, self.context))


class Contexts(unittest.TestCase):
    def test_truth(self):
        """Each value is yes or no by its truth, also one that C has no room for."""
        for yes in (True, 1, 2, 256, 1 << 40, -256, "no"):
            context = ristulva.Context(as4=yes)
            self.assertEqual(context, ristulva.Context(as4=True))
            it = ristulva.judge(message(2, BODY), context)
            self.assertEqual((it.verdict, it.as_path()), ("update", [(2, [65000, 200000])]))
        for no in (False, 0, None, ""):
            self.assertEqual(ristulva.Context(as4=no), ristulva.Context())


class Updates(unittest.TestCase):
    context = ristulva.Context(as4=True)

    def test_fields(self):
        it = ristulva.judge(message(2, BODY), self.context)
        self.assertEqual(it.verdict, "update")
        self.assertEqual(list(it.announced()), [ipaddress.ip_network("10.0.0.0/8")])
        self.assertEqual(list(it.withdrawn()), [])
        self.assertEqual(it.as_path(), [(2, [65000, 200000])])
        self.assertEqual(it.communities(), [0x00010002])
        self.assertEqual([a.kind for a in it.attributes()], [1, 2, 3, 8])
        self.assertEqual(it.large_communities(), [])

    def test_large_communities(self):
        """Each only where it occurs first (RFC 8092, section 3), as in the lines."""
        one, two = "0000fde80000000100000002", "0000fde80000000100000003"
        body = bytes.fromhex("0000" + "0057" + BODY.hex()[8:-18] + "c0203c" + one + two + one + two + two + "080a")
        it = ristulva.judge(message(2, body), self.context)
        self.assertEqual(it.large_communities(), [(65000, 1, 2), (65000, 1, 3)])
        self.assertIn("  large 65000:1:2 65000:1:3\n", str(it))

    def test_incomplete(self):
        for count in range(len(message(2, BODY))):
            self.assertIsNone(ristulva.judge(message(2, BODY)[:count], self.context))

    def test_reset(self):
        it = ristulva.judge(MARKER + bytes.fromhex("001304".replace("13", "12")), self.context)
        self.assertEqual((it.verdict, it.notification), ("reset", (1, 2, b"\x00\x12")))

    def test_faulty_header(self):
        """It has the octets of the header, whatever follows it, and its line."""
        header = MARKER + bytes.fromhex("001204")
        for rest in (b"", b"more", bytes(5000)):
            it = ristulva.judge(header + rest, self.context)
            self.assertEqual((it.octets, str(it)), (header, "0 0 HEADER reset 1/2 0012\n"))

    def test_notification(self):
        it = ristulva.judge(message(3, b"\x06\x02\x03bye"), self.context)
        self.assertEqual((it.verdict, it.notification), ("notification", (6, 2, b"\x03bye")))

    def test_encode(self):
        """ORIGIN after AS_PATH, its length in two octets, is written before it, in one."""
        mixed = bytes.fromhex("0000" + "0020" + "40020a02020000fde800030d40" + "5001000100" + "400304c0000201" + "c0080400010002" + "080a")
        self.assertEqual(ristulva.encode(mixed, self.context), message(2, BODY))
        self.assertEqual(ristulva.encode(BODY, self.context), message(2, BODY))

    def test_narrow(self):
        """23456 replaces 200000, and AS4_PATH has it (RFC 6793, section 4.2.2)."""
        body = bytes.fromhex("0000" + "0028" + "40010100" + "4002060202fde85ba0" + "400304c0000201" + "c0080400010002" + "c0110a02020000fde800030d40" + "080a")
        self.assertEqual(ristulva.narrow(BODY, self.context), message(2, body))

    def test_reconcile(self):
        """200000 is in AS4_PATH, and replaces 23456 again (RFC 6793, section 4.2.3)."""
        body = bytes.fromhex("0000" + "0028" + "40010100" + "4002060202fde85ba0" + "400304c0000201" + "c0080400010002" + "c0110a02020000fde800030d40" + "080a")
        self.assertEqual(ristulva.reconcile(body, self.context), message(2, BODY))

    def test_notes(self):
        """The notes are those of the lines, which have offsets in the body."""
        for path in sorted(EXAMPLES.glob("*.hex")):
            flags = path.with_suffix(".flags")
            said = {flag[2:]: True for flag in flags.read_text().split()} if flags.exists() else {}
            for it in ristulva.messages(bytes.fromhex(path.read_text()), ristulva.Context(**said)):
                lines = [line.split() for line in str(it).splitlines() if line.startswith("  note ")]
                wanted = [(int(at) and int(at) + 19, int(kind), why) for _, at, kind, why in lines]
                with self.subTest(path.name):
                    self.assertEqual(list(it.notes()), wanted)

    def test_refused(self):
        with self.assertRaises(ristulva.Refused):
            ristulva.encode(BODY[:-2] + b"\x21\x0a", self.context)
        with self.assertRaises(ristulva.Refused):
            ristulva.encode(bytes(4078), self.context)


class Cleaning(unittest.TestCase):
    context = ristulva.Context(as4=True, ip4=True, ip6=True)
    attributes = "40010100" + "40020a02020000fde800030d40" + "400304c0000201"

    def update(self, attributes, nlri="080a", withdrawn=""):
        attributes, nlri, withdrawn = (bytes.fromhex(it) for it in (attributes, nlri, withdrawn))
        return message(2, len(withdrawn).to_bytes(2, "big") + withdrawn + len(attributes).to_bytes(2, "big") + attributes + nlri)

    def becomes(self, octets, wanted, counts, **how):
        """What is passed on of octets is wanted, without this many attributes that are discarded, this many that are left out, and this many capabilities;
        each message of wanted is passed on unchanged."""
        self.assertEqual(ristulva.judge(octets, self.context).clean(**how), ristulva.Cleaned(wanted, None, *counts))
        for part in ristulva.messages(wanted, self.context):
            self.assertEqual(part.clean(**how), ristulva.Cleaned(part.octets, None, 0, 0, 0))

    def ends(self, octets, why, **how):
        self.assertEqual(ristulva.judge(octets, self.context).clean(**how), ristulva.Cleaned(b"", why, 0, 0, 0))

    def test_withdrawal(self):
        """An ORIGIN without a meaning: the routes of NLRI are withdrawn too (RFC 7606, section 7.1)."""
        bad = self.attributes.replace("40010100", "40010109")
        self.becomes(self.update(bad, withdrawn="080b"), self.update("", "", "080b080a"), (0, 0, 0))

    def test_discarded(self):
        """An AGGREGATOR of which an octet is missing (RFC 7606, section 7.7)."""
        it = self.update(self.attributes + "c0070700010d40c00002")
        self.becomes(it, self.update(self.attributes), (1, 0, 0))
        self.assertEqual(len(list(ristulva.judge(it, self.context).notes())), 1)

    def test_types(self):
        """Of two that aren't recognised each is left out by its type; ORIGIN never is."""
        it = self.update(self.attributes + "c0140101" + "c01e0102")
        self.becomes(it, it, (0, 0, 0))
        self.becomes(it, self.update(self.attributes + "c01e0102"), (0, 1, 0), types=[20, 1])
        self.becomes(it, self.update(self.attributes), (0, 2, 0), types={30, 20, 255})
        self.becomes(it, self.update(self.attributes), (0, 2, 0), types=bytes(range(256)))
        for types in (20, "20", [256], [-1]):
            self.assertRaises((TypeError, ValueError), ristulva.judge(it, self.context).clean, types=types)

    def test_nothing_left(self):
        """That isn't an End-of-RIB, but what is one stays one (RFC 4724, section 2)."""
        self.becomes(self.update("c0140101", ""), message(4, b""), (0, 1, 0), types=[20])
        self.becomes(self.update("", ""), self.update("", ""), (0, 0, 0), types=[20])

    def test_open(self):
        """IPv4 unicast, route refresh, AS 131073 and IPv4 unicast: two are passed on, in one parameter."""
        fixed = bytes.fromhex("04" + "5ba0" + "005a" + "c0000202")
        field = bytes.fromhex("0214" + "010400010001" + "0200" + "410400020001" + "010400010001")
        wanted = bytes.fromhex("020c" + "010400010001" + "410400020001")
        it = message(1, fixed + bytes([len(field)]) + field)
        self.becomes(it, message(1, fixed + bytes([len(wanted)]) + wanted), (0, 0, 2), first=True)
        self.ends(it, "late open")
        self.ends(message(1, fixed + bytes.fromhex("08" + "0206" + "010400010002")), "no family", first=True)

    def test_others(self):
        for it in (message(4, b""), message(3, b"\x06\x02\x03bye")):
            self.becomes(it, it, (0, 0, 0))
        self.ends(message(2, bytes.fromhex("0003080a0000")), "reset")
        self.ends(MARKER + bytes.fromhex("001204"), "reset", first=True)

    def test_captures(self):
        """What is passed on of each capture is accepted without a note, and is passed on unchanged."""
        for path in sorted(EXAMPLES.glob("*.hex")):
            for it in ristulva.messages(bytes.fromhex(path.read_text()), self.context):
                with self.subTest(path.name):
                    handed = it.clean(first=it.place == 0)
                    if handed.ends is None:
                        self.becomes(it.octets, handed.octets, (handed.discarded, handed.left_out, handed.capabilities), first=it.place == 0)
                        for part in ristulva.messages(handed.octets, self.context):
                            self.assertEqual(list(part.notes()), [])
                            self.assertLessEqual(len(part.octets), len(it.octets))


if __name__ == "__main__":
    unittest.main()
