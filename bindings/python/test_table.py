"""Tests of tables, by octets written by hand from the RFCs; as test_message.py is run. Without numpy they are left out."""

import array
import importlib.util
import ipaddress
import mmap
import pickle
import sys
import tempfile
import threading
import unittest
import unittest.mock
import warnings

import ristulva

HAS_NUMPY = importlib.util.find_spec("numpy") is not None
HAS_PANDAS = importlib.util.find_spec("pandas") is not None
HAS_ARROW = importlib.util.find_spec("pyarrow") is not None
if HAS_NUMPY:
    import numpy
    from ristulva import tables

FOUR = ristulva.Context(as4=True, ip4=True, ip6=True)
TWO = ristulva.Context(ip4=True, ip6=True)
NO_IP6 = ristulva.Context(as4=True)


def message(kind, body=""):
    """A message of this type (RFC 4271, section 4.1)."""
    octets = bytes.fromhex(body)
    return b"\xff" * 16 + (19 + len(octets)).to_bytes(2, "big") + bytes([kind]) + octets


def update(attributes="", nlri="", withdrawn=""):
    """An UPDATE (RFC 4271, section 4.3)."""
    gone, field = bytes.fromhex(withdrawn), bytes.fromhex(attributes)
    return message(2, (len(gone).to_bytes(2, "big") + gone + len(field).to_bytes(2, "big") + field + bytes.fromhex(nlri)).hex())


KEEPALIVE = message(4)
ORIGIN, HOP = "40010100", "400304c0000201"
PATH = "40020a 0202 0000fde9 00030d40"  # 65001 200000
COMMUNITIES = "c00808 fde80001 ffffff01"
LARGE = "c02024 0000fde8 00000001 00000002 0000fde8 00000003 00000004 0000fde8 00000001 00000002"
REACH = "800e1a 0002 01 10 20010db8000000000000000000000001 00 20 20010db8"
UNREACH = "800f0a 0002 01 30 20010db80001"
FIRST = update(ORIGIN + PATH + HOP + COMMUNITIES + LARGE + REACH + UNREACH, nlri="080a 18c63364", withdrawn="100a01")
SECOND = update("40010109" + PATH + HOP, nlri="18cb0071")  # an ORIGIN of no meaning: treated as a withdrawal (RFC 7606, section 7.1)
STREAM = KEEPALIVE + FIRST + KEEPALIVE + SECOND
RESET = update(ORIGIN + "4002", nlri="21")  # a prefix of 33 bits (RFC 4271, section 6.3)


def told(octets, context, **how):
    """A table, and the kinds of warnings with it."""
    with warnings.catch_warnings(record=True) as found:
        warnings.simplefilter("always")
        table = ristulva.table(octets, context, **how)
    return table, [it.category for it in found]


def values(rows, *names):
    """The fields of rows as a list of tuples, or of values where it is one field."""
    return rows[names[0]].tolist() if len(names) == 1 else list(zip(*(rows[name].tolist() for name in names)))


@unittest.skipUnless(HAS_NUMPY, "needs numpy")
class Rows(unittest.TestCase):
    def test_routes(self):
        """Those that an UPDATE withdraws, then those that it announces; of one that is treated as a withdrawal all are withdrawn."""
        table, warned = told(STREAM, FOUR)
        rows = table.routes
        wanted = ["10.1.0.0/16", "2001:db8:1::/48", "2001:db8::/32", "10.0.0.0/8", "198.51.100.0/24", "203.0.113.0/24"]
        self.assertEqual(ristulva.prefixes(rows), [ipaddress.ip_network(prefix) for prefix in wanted])
        self.assertEqual(values(rows, "announced"), [False, False, True, True, True, False])
        self.assertEqual(values(rows, "message"), [19] * 5 + [19 + len(FIRST) + 19])
        self.assertEqual(values(rows, "verdict"), [2] * 5 + [5])
        self.assertEqual(values(rows, "afi", "length"), [(1, 16), (2, 48), (2, 32), (1, 8), (1, 24), (1, 24)])
        self.assertEqual(values(rows, "high", "low")[1:4], [(0x20010DB800010000, 0), (0x20010DB800000000, 0), (10 << 56, 0)])
        self.assertEqual(values(rows, "has_origin_as", "origin_as"), [(False, 0)] * 2 + [(True, 200000)] * 3 + [(False, 0)])
        self.assertEqual((table.taken, table.rest, table.reset, warned), (len(STREAM), 0, None, []))

    def test_places(self):
        """The values of attributes of what is announced; none of what is withdrawn, nor of an attribute that is missing."""
        rows = ristulva.table(STREAM, FOUR).routes
        for name, value in (("as_path", PATH[6:]), ("communities", COMMUNITIES[6:]), ("large_communities", LARGE[6:])):
            octets = bytes.fromhex(value)
            self.assertEqual(values(rows[name], "at", "len"), [(0, 0)] * 2 + [(FIRST.index(octets), len(octets))] * 3 + [(0, 0)])
        self.assertEqual(values(rows["as4_path"], "at", "len"), [(0, 0)] * 6)

    def test_values(self):
        """Only of the accepted UPDATE. A large community that occurs twice is given once (RFC 8092, section 3)."""
        table = ristulva.table(STREAM, FOUR)
        self.assertEqual(values(table.path_numbers, "message", "number", "segment", "set"), [(19, 65001, 0, False), (19, 200000, 0, False)])
        self.assertEqual(values(table.communities, "message", "value"), [(19, 0xFDE80001), (19, 0xFFFFFF01)])
        self.assertEqual(values(table.large_communities, "message", "global", "local1", "local2"), [(19, 65000, 1, 2), (19, 65000, 3, 4)])
        self.assertIs(table.communities, table.communities)

    def test_path_of_two(self):
        """What AS_PATH and AS4_PATH give together (RFC 6793, section 4.2.3): 23456 replaces numbers that need four octets."""
        path = "400208 0203 fde9 5ba0 5ba0" + "c0110a 0202 00030d40 00030d41"
        table = ristulva.table(update(ORIGIN + path + HOP, nlri="080a"), TWO)
        self.assertEqual(values(table.path_numbers, "number"), [65001, 200000, 200001])
        self.assertEqual(values(table.routes, "origin_as", "has_origin_as"), [(200001, True)])
        self.assertEqual(values(table.routes["as4_path"], "len"), [10])

    def test_sets(self):
        """A path that ends in a set has no origin AS (RFC 6811, section 2)."""
        path = "400210 0201 0000fde9 0102 0000fdea 0000fdeb"
        table = ristulva.table(update(ORIGIN + path + HOP, nlri="080a"), FOUR)
        self.assertEqual(values(table.path_numbers, "number", "segment", "set"), [(65001, 0, False), (65002, 1, True), (65003, 1, True)])
        self.assertEqual(values(table.routes, "has_origin_as", "origin_as"), [(False, 0)])

    def test_no_routes(self):
        """An UPDATE without routes has its communities all the same; other messages have no rows."""
        table = ristulva.table(KEEPALIVE + update(COMMUNITIES) + KEEPALIVE, FOUR)
        self.assertEqual((table.routes.size, values(table.communities, "value")), (0, [0xFDE80001, 0xFFFFFF01]))
        self.assertEqual(table.taken, 2 * len(KEEPALIVE) + len(update(COMMUNITIES)))
        for octets in (b"", bytearray(), KEEPALIVE):
            table, warned = told(octets, FOUR)
            sizes = [rows.size for rows in (table.routes, table.path_numbers, table.communities, table.large_communities)]
            self.assertEqual((sizes, table.taken, warned), ([0] * 4, len(octets), []))

    def test_many(self):
        """Streams of more rows than one call has room for, also where they are denser at the end than at first."""
        full = update(withdrawn="00" * 4073)
        one = update(ORIGIN + PATH + HOP + COMMUNITIES, nlri="080a")
        for octets, count in ((full * 20, 4073 * 20), (KEEPALIVE * 40000 + full * 9, 4073 * 9), (one * 3000 + full * 9 + KEEPALIVE * 9, 3000 + 4073 * 9)):
            table = ristulva.table(octets, FOUR)
            self.assertEqual((table.routes.size, table.taken), (count, len(octets)))
            places = [place for place, it in starts(octets) for _ in it.routes()]
            self.assertEqual(values(table.routes, "message"), places)
            self.assertTrue(table.routes.flags.owndata)

    def test_rooms(self):
        """Whatever room the calls have, the rows are the same."""
        octets = STREAM * 2000
        whole = [tables.read(kind, tables.view_of(octets), FOUR) for kind in tables.KINDS]
        for room in (4073, 4074, 5000, 100000):
            for kind, wanted in zip(tables.KINDS, whole):
                found = tables.read(kind, tables.view_of(octets), FOUR, room)
                names = wanted.rows.dtype.names
                self.assertEqual((values(found.rows, *names), found[1:]), (values(wanted.rows, *names), wanted[1:]))
        status = tables.written("routes", tables.view_of(octets), FOUR, numpy.empty(4072, tables.form_of("routes")))
        self.assertEqual(status, (0, 0, 5))


def starts(octets):
    """The messages of a stream with their offsets."""
    return [(it.place, it) for it in ristulva.messages(octets, FOUR)]


@unittest.skipUnless(HAS_NUMPY, "needs numpy")
class Ends(unittest.TestCase):
    def test_incomplete(self):
        """What was read before a message that is cut off is given."""
        for rest in (FIRST[:-1], FIRST[:18], b"\xff"):
            table, warned = told(STREAM + rest, FOUR)
            self.assertEqual((table.routes.size, table.taken, table.rest, table.reset, warned), (6, len(STREAM), len(rest), None, [ristulva.Incomplete]))

    def test_reset(self):
        """A message, or a header, that resets the session; after it nothing is read."""
        for octets, code in ((RESET, 3), (b"\xfe" + KEEPALIVE[1:], 1), (KEEPALIVE[:-1] + b"\x09", 1)):
            table, warned = told(STREAM + octets + FIRST, FOUR)
            self.assertEqual((table.routes.size, table.taken, table.rest, warned), (6, len(STREAM), len(octets + FIRST), [ristulva.Reset]))
            self.assertEqual((table.reset.verdict, table.reset.place, table.reset.notification[0]), ("reset", len(STREAM), code))
            self.assertEqual(values(table.communities, "message"), [19, 19])

    def test_ip6(self):
        """IPv6 routes that the context doesn't have are reported, wherever they are, and nothing else that looks like them."""
        lost = update(ORIGIN + PATH + REACH)
        like = update(ORIGIN + PATH + HOP + "c00808 0e010002 0100000f", nlri="080a")
        long = update(ORIGIN + PATH + REACH.replace("800e1a", "900e001a"))  # a length of two octets
        for octets in (like * 3000 + KEEPALIVE * 20000 + lost, lost, long, update(UNREACH), KEEPALIVE * 9 + lost + like):
            self.assertEqual(told(octets, NO_IP6)[1], [ristulva.FamilyNotAgreed])
            self.assertEqual(told(octets, FOUR)[1], [])
        for octets in (like * 3000, KEEPALIVE, SECOND):
            self.assertEqual(told(octets, NO_IP6)[1], [])
        table, warned = told(lost + RESET, NO_IP6)
        self.assertEqual((warned, table.routes.size), ([ristulva.Reset, ristulva.FamilyNotAgreed], 0))
        self.assertEqual(told(RESET + lost, NO_IP6)[1], [ristulva.Reset])

    def test_message(self):
        """From a row to its message."""
        table = ristulva.table(STREAM, FOUR)
        place = table.routes["message"][-1]
        self.assertEqual((table.message(place), table.message(place).verdict), (ristulva.judge(SECOND, FOUR, int(place)), "withdraw"))
        with self.assertRaises(ValueError):
            table.message(len(STREAM))


NONE, PLAIN, ENHANCED = (ristulva.Terms(FOUR, it) for it in ristulva.Refreshes)
REQUEST, BEGIN, LONG = message(5, "00010001"), message(5, "00010101"), message(5, "00010001" + "0002010110" * 800)


@unittest.skipUnless(HAS_NUMPY, "needs numpy")
class Refreshed(unittest.TestCase):
    """By terms an accepted ROUTE-REFRESH has no rows (RFC 2918; RFC 7313), and the others are at their offsets in the whole stream."""

    def same(self, parts, terms, wanted=()):
        """A table of the parts of a stream by terms, of which some are a ROUTE-REFRESH, against one of the others in the context."""
        table, warned = told(b"".join(parts), terms)
        others, at, shifts = b"", 0, {}
        for part in parts:
            if part[18:19] != b"\5":
                shifts[len(others)] = at
                others += part
            at += len(part)
        plain, _ = told(others, terms.context)
        for kind in tables.KINDS:
            ours, theirs = getattr(table, kind), getattr(plain, kind)
            names = [name for name in ours.dtype.names if name != "message"]
            self.assertEqual(values(ours, *names), values(theirs, *names))
            self.assertEqual(values(ours, "message"), [shifts[place] for place in values(theirs, "message")])
        self.assertEqual((table.terms, table.context, warned), (terms, terms.context, [*wanted]))
        return table

    def test_each_place(self):
        parts = [KEEPALIVE, FIRST, KEEPALIVE, SECOND]
        for refresh, terms in ((REQUEST, PLAIN), (BEGIN, ENHANCED), (LONG, PLAIN)):
            for at in range(5):
                for count in (1, 3):
                    table = self.same([*parts[:at], *[refresh] * count, *parts[at:]], terms)
                    self.assertEqual((table.taken, table.rest, table.reset), (len(STREAM) + count * len(refresh), 0, None))
        self.same([REQUEST], PLAIN)
        self.same([BEGIN] * 2, ENHANCED)
        self.same(parts, NONE)

    def test_others(self):
        """One that the reader doesn't accept resets the session, and so does another message that does; of these a message has the outcome by the terms."""
        short, mark = message(5, "000101"), message(5, "0001010100")
        for bad, terms, code in ((REQUEST, NONE, (1, 3)), (short, PLAIN, (1, 2)), (short, ENHANCED, (7, 1)), (mark, ENHANCED, (7, 1)), (RESET, PLAIN, (3, 10))):
            before = b"" if terms is NONE else REQUEST
            table, warned = told(before + STREAM + bad + FIRST, terms)
            self.assertEqual((table.routes.size, table.taken, table.rest, warned), (6, len(before + STREAM), len(bad + FIRST), [ristulva.Reset]))
            self.assertEqual((table.reset, table.reset.terms), (ristulva.judge(bad + FIRST, terms, table.taken), terms))
            self.assertEqual(table.reset.notification[:2], code)
        self.assertEqual(told(STREAM + REQUEST, FOUR)[1], [ristulva.Reset])
        self.assertIsNone(told(STREAM, FOUR)[0].terms)

    def test_incomplete(self):
        """One that is cut off is no fault of its header, which it is in a context."""
        for size in range(1, len(REQUEST)):
            table, warned = told(STREAM + REQUEST + FIRST + REQUEST[:size], PLAIN)
            self.assertEqual((table.routes.size, table.rest, table.reset, warned), (11, size, None, [ristulva.Incomplete]))
        self.assertEqual(told(STREAM + REQUEST[:19], FOUR)[1], [ristulva.Reset])

    def test_many(self):
        """Each is judged once, whatever the number of rows between two of them: the time is that of the stream's length."""
        full, one = update(withdrawn="00" * 4073), update(ORIGIN + PATH + HOP + COMMUNITIES, nlri="080a")
        for parts in ([one, REQUEST] * 3000, [REQUEST] * 3000 + [full] * 9, [REQUEST, full, full, REQUEST] * 9, [KEEPALIVE] * 20000 + [full, BEGIN] * 9):
            terms = ENHANCED if BEGIN in parts else PLAIN
            octets = b"".join(parts)
            with unittest.mock.patch.object(tables, "judge", wraps=tables.judge) as judge:
                table = ristulva.table(octets, terms)
                self.assertEqual(judge.call_count, sum(part[18] == 5 for part in parts))
            self.assertEqual((table.taken, table.rest, table.routes.flags.owndata), (len(octets), 0, True))
            self.assertEqual(values(table.routes, "message"), [it.place for it in ristulva.messages(octets, terms) for _ in it.routes()])

    def test_rooms(self):
        """Whatever room the calls have, the rows are the same."""
        octets = tables.view_of((STREAM + REQUEST + FIRST) * 2000 + REQUEST[:20])
        whole = [tables.read(kind, octets, PLAIN) for kind in tables.KINDS]
        self.assertEqual({it.status for it in whole}, {tables.INCOMPLETE})
        for room in (4073, 4074, 5000):
            for kind, wanted in zip(tables.KINDS, whole):
                found = tables.read(kind, octets, PLAIN, room)
                names = wanted.rows.dtype.names
                self.assertEqual((values(found.rows, *names), found[1:]), (values(wanted.rows, *names), wanted[1:]))

    def test_ip6(self):
        """IPv6 routes that the context doesn't have are reported, wherever they are; what looks like them in a ROUTE-REFRESH isn't."""
        terms, lost = ristulva.Terms(NO_IP6, 1), update(ORIGIN + PATH + REACH)
        like = message(5, "00010001" + "0e1a00020110")
        for octets in (lost, REQUEST + lost, like + lost, lost + like, KEEPALIVE + like + like + update() + lost):
            self.assertEqual(told(octets, terms)[1], [ristulva.FamilyNotAgreed])
        for octets in (like, KEEPALIVE + like + SECOND, like * 9):
            self.assertEqual(told(octets, terms)[1], [])

    def test_message(self):
        """From a row to its message, and to a ROUTE-REFRESH at its offset."""
        table = ristulva.table(FIRST + BEGIN + SECOND, ENHANCED)
        place = table.routes["message"][-1]
        self.assertEqual((table.message(place), table.message(place).verdict), (ristulva.judge(SECOND, ENHANCED, int(place)), "withdraw"))
        self.assertEqual(table.message(len(FIRST)).refresh(), ristulva.Refresh(1, 1, ristulva.Subtype.BEGIN, b""))

    def test_paths(self):
        """The rows are those of the stream without path identifiers, and each route has its own (RFC 7911, section 3)."""
        terms = ristulva.Terms(FOUR, 2, paths4=True, paths6=True)
        reach, unreach = REACH.replace("1a", "1e", 1).replace("00 20 2001", "00 00000007 20 2001"), "800f0e 0002 01 00000006 30 20010db80001"
        first = update(ORIGIN + PATH + HOP + COMMUNITIES + LARGE + reach + unreach, nlri="00000001 080a ffffffff 18c63364", withdrawn="00000005 100a01")
        second = update("40010109" + PATH + HOP, nlri="00000002 18cb0071")
        table, warned = told(first + BEGIN + KEEPALIVE + second, terms)
        plain = ristulva.table(FIRST + BEGIN + KEEPALIVE + SECOND, ENHANCED)
        self.assertEqual((warned, table.taken, table.rest, table.reset), ([], len(first + BEGIN + KEEPALIVE + second), 0, None))
        self.assertEqual(values(table.routes, "path"), [5, 6, 7, 1, 4294967295, 2])
        self.assertEqual(values(plain.routes, "path"), [0] * 6)
        names = [name for name in plain.routes.dtype.names if name not in ("message", "path")]
        self.assertEqual(values(table.routes, *names), values(plain.routes, *names))
        offset = len(first + BEGIN + KEEPALIVE)
        self.assertEqual(values(table.routes, "message"), [0] * 5 + [offset])
        self.assertEqual(values(table.communities, "message", "value"), values(plain.communities, "message", "value"))
        self.assertEqual([it.path for it in table.message(offset).routes()], [2])

    def test_paths_to_the_end(self):
        """What ends a stream with path identifiers ends its table: an UPDATE, a header, and too few octets."""
        terms = ristulva.Terms(FOUR, paths4=True)
        first, cut = update(ORIGIN + PATH + HOP, nlri="00000001 080a"), update(nlri="00000001")
        for end, kinds in ((cut + first, [ristulva.Reset]), (REQUEST + first, [ristulva.Reset]), (first[:-1], [ristulva.Incomplete])):
            table, warned = told(first + end, terms)
            self.assertEqual((warned, table.taken, table.rest, values(table.routes, "path")), (kinds, len(first), len(end), [1]))
            self.assertEqual(table.reset is None, kinds == [ristulva.Incomplete])
        self.assertEqual(told(b"", terms)[0].routes.size, 0)


@unittest.skipUnless(HAS_NUMPY, "needs numpy")
class Buffers(unittest.TestCase):
    def test_octets(self):
        """Whatever holds the octets, they aren't copied."""
        wanted = values(ristulva.table(STREAM, FOUR).routes, "message", "high", "announced")
        wide = array.array("H", STREAM + bytes(len(STREAM) % 2))
        parts = memoryview(b"x" + STREAM)[1:], memoryview(STREAM + STREAM)[: len(STREAM)]
        for octets in (bytearray(STREAM), memoryview(STREAM), *parts, numpy.frombuffer(STREAM, "u1")):
            table = ristulva.table(octets, FOUR)
            self.assertEqual(values(table.routes, "message", "high", "announced"), wanted)
            self.assertEqual(table._octets.ctypes.data, numpy.frombuffer(octets, "u1").ctypes.data)
        self.assertEqual(told(wide, FOUR)[0].routes.size, 6)
        apart = numpy.repeat(numpy.frombuffer(STREAM, "u1"), 2)[::2]
        self.assertEqual(values(ristulva.table(apart, FOUR).routes, "message", "high", "announced"), wanted)
        with self.assertRaises(TypeError):
            ristulva.table("text", FOUR)

    def test_mapped(self):
        """A file that is mapped is read in place, and can be closed once its table is freed."""
        with tempfile.TemporaryFile() as file:
            file.write(STREAM)
            file.flush()
            with mmap.mmap(file.fileno(), 0, access=mmap.ACCESS_READ) as mapped:
                table = ristulva.table(mapped, FOUR)
                routes, communities = table.routes, table.communities
                with self.assertRaises(BufferError):
                    mapped.close()
                del table
        self.assertEqual((routes.size, communities.size), (6, 2))

    def test_threads(self):
        """Threads that ask one table at one time get the same rows."""
        table, found = ristulva.table(STREAM * 3000, FOUR), []
        threads = [threading.Thread(target=lambda: found.append(table.path_numbers)) for _ in range(8)]
        for thread in threads:
            thread.start()
        for thread in threads:
            thread.join()
        self.assertTrue(len(found) == 8 and all(it is found[0] for it in found))

    def test_rows_as_values(self):
        """Rows pickle, and are saved by numpy."""
        rows = ristulva.table(STREAM, FOUR).routes
        self.assertEqual(values(pickle.loads(pickle.dumps(rows)), "high", "message"), values(rows, "high", "message"))
        with tempfile.TemporaryFile() as file:
            numpy.save(file, rows)
            file.seek(0)
            self.assertEqual(values(numpy.load(file), "high", "message"), values(rows, "high", "message"))


@unittest.skipUnless(HAS_NUMPY, "needs numpy")
class Joins(unittest.TestCase):
    def test_joined(self):
        """Each route with each community of its message."""
        table = ristulva.table(STREAM + FIRST, FOUR)
        ours, theirs = ristulva.joined(table.routes, table.communities)
        pairs = list(zip(ours.tolist(), theirs.tolist()))
        self.assertEqual(pairs, [(route, value) for route in range(5) for value in (0, 1)] + [(route, value) for route in range(6, 11) for value in (2, 3)])
        ours, theirs = ristulva.joined(table.routes[5:6], table.communities)
        self.assertEqual((ours.size, theirs.size), (0, 0))

    @unittest.skipUnless(HAS_PANDAS, "needs pandas")
    def test_frame(self):
        """A table of pandas over the same memory, but for addresses."""
        table = ristulva.table(STREAM, FOUR)
        frame = ristulva.frame(table.routes)
        for name in ("message", "origin_as", "length", "announced"):
            self.assertTrue(numpy.shares_memory(frame[name].to_numpy(), table.routes), name)
        self.assertEqual(list(frame["high"])[3:4], [10 << 56])
        self.assertEqual(frame[frame["announced"]].groupby("origin_as").size().to_dict(), {200000: 3})
        self.assertEqual(list(frame["communities_len"]), [0, 0, 8, 8, 8, 0])
        self.assertEqual(len(ristulva.frame(table.large_communities).columns), 4)

    @unittest.skipUnless(HAS_ARROW, "needs pyarrow")
    def test_arrow(self):
        """A table of Arrow."""
        table = ristulva.table(STREAM, FOUR)
        made = ristulva.arrow(table.routes)
        self.assertEqual(made.column("origin_as").to_pylist(), [0, 0, 200000, 200000, 200000, 0])


class Without(unittest.TestCase):
    def test_no_numpy(self):
        """Where there is no numpy, that is reported; the rest of the package needs none."""
        kept = sys.modules.get("numpy")
        sys.modules["numpy"] = None
        try:
            with self.assertRaisesRegex(ImportError, "ristulva.table needs numpy"):
                ristulva.table(STREAM, FOUR)
        finally:
            del sys.modules["numpy"]
            if kept is not None:
                sys.modules["numpy"] = kept


if __name__ == "__main__":
    unittest.main()
