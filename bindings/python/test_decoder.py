"""Tests of decoders: a stream in pieces is what it is whole."""

import copy
import gc
import pathlib
import pickle
import random
import resource
import signal
import sys
import threading
import tracemalloc
import unittest

import ristulva
from ristulva import Context, Decoder

CONTEXT = Context(as4=True, ip4=True, ip6=True)
EXAMPLES = pathlib.Path(__file__).resolve().parents[2] / "examples"


def message(kind, body=b""):
    return b"\xff" * 16 + (19 + len(body)).to_bytes(2, "big") + bytes([kind]) + body


# 10.0.0.0/8 by the path 70000 65001, next hop 192.0.2.1; and the same without a next hop.
UPDATE = message(2, bytes.fromhex("0000" + "0018" + "40010100" + "40020a0202000111700000fde9" + "400304c0000201" + "080a"))
WITHOUT_HOP = message(2, bytes.fromhex("0000" + "000d" + "40010100" + "40020602010000fde9" + "080a"))
OPEN = message(1, bytes.fromhex("04fde9005ac000020100"))
STREAM = OPEN + message(4) + UPDATE + message(4) + WITHOUT_HOP + message(3, bytes.fromhex("0602") + b"bye")
FAULTS = [message(4, b"\0"), message(9), b"\xfe" + message(4)[1:], message(2, bytes.fromhex("00090000"))]


def octets_of(name):
    """The octets of a capture, which has comments."""
    lines = (EXAMPLES / name).read_text().splitlines()
    return bytes.fromhex("".join(line.split("#")[0] for line in lines))


def told(it):
    """All that a message reports."""
    return it.place, it.octets, bytes(it.found), it.data, str(it), it.notification, list(map(str, it.announced())), list(map(str, it.withdrawn()))


def in_pieces(octets, cuts):
    found = []
    with Decoder(CONTEXT) as decoder:
        for at, end in zip([0, *cuts], [*cuts, len(octets)]):
            found += map(told, decoder.feed(octets[at:end]))
    return found


class Handles(unittest.TestCase):
    def test_not_copied(self):
        """What is the library's has no copy."""
        with Decoder(CONTEXT) as decoder, ristulva.Session(ristulva.Config(65001, 65002, "192.0.2.1")) as session:
            for it, name in ((decoder, "Decoder"), (session, "Session")):
                self.assertEqual(repr(it), f"<ristulva.{name}: open>")
                for copied in (pickle.dumps, copy.copy, copy.deepcopy):
                    self.assertRaisesRegex(TypeError, "can't be copied or pickled", copied, it)
        self.assertEqual((repr(decoder), repr(session)), ("<ristulva.Decoder: closed>", "<ristulva.Session: closed>"))


class Pieces(unittest.TestCase):
    def test_each_cut(self):
        for fault in [b"", *FAULTS]:
            octets = STREAM + fault + message(4)
            whole = [told(it) for it in ristulva.messages(octets, CONTEXT)]
            self.assertEqual(in_pieces(octets, []), whole)
            self.assertEqual(in_pieces(octets, range(1, len(octets))), whole)
            for cut in range(len(octets)):
                with self.subTest(fault.hex(), cut=cut):
                    self.assertEqual(in_pieces(octets, [cut]), whole)

    def test_captures(self):
        chance = random.Random(1)
        for path in sorted(EXAMPLES.glob("*.hex")):
            octets = octets_of(path.name)
            whole = [told(it) for it in ristulva.messages(octets, CONTEXT)]
            for size in (1, 7, 5000):
                cuts = sorted(chance.sample(range(len(octets)), len(octets) // size)) if len(octets) > size else []
                with self.subTest(path.name, size=size):
                    self.assertEqual(in_pieces(octets, cuts), whole)

    def test_held(self):
        with Decoder(CONTEXT) as decoder:
            self.assertEqual((decoder.feed(UPDATE[:30]), decoder.held), ([], 30))
            self.assertEqual((decoder.feed(b""), decoder.held), ([], 30))
            (it,) = decoder.feed(bytearray(UPDATE[30:]))
            self.assertEqual((it.verdict, it.octets, it.as_path(), decoder.held), ("update", UPDATE, [(2, [70000, 65001])], 0))
            self.assertEqual(decoder.taken, len(UPDATE))
            self.assertEqual([it.verdict for it in decoder.feed(memoryview(message(4) * 3 + UPDATE[:5]))], ["keepalive"] * 3)
            self.assertEqual(decoder.held, 5)

    def test_behind_a_reset(self):
        """Nothing is read there (RFC 4271, section 6)."""
        for fault in FAULTS:
            with self.subTest(fault.hex()), Decoder(CONTEXT) as decoder:
                self.assertEqual([it.verdict for it in decoder.feed(message(4) + fault + message(4))], ["keepalive", "reset"])
                self.assertEqual((decoder.feed(message(4)), decoder.held), ([], 0))

    def test_large_pieces(self):
        with Decoder(CONTEXT) as decoder:
            found = decoder.feed(message(4) * 20_000)
            self.assertEqual((len(found), found[-1].place), (20_000, 19 * 19_999))

    def test_memory(self):
        """A piece isn't held once its messages were answered."""
        with Decoder(CONTEXT) as decoder:
            tracemalloc.start()
            decoder.feed(message(4) * 20_000)
            self.assertLess(tracemalloc.get_traced_memory()[0], 100_000)
            tracemalloc.stop()


class Cut(Exception):
    """What a signal's handler raises."""


def cutting(count):
    """A trace that raises Cut at one of the steps of a decoder: at a line, or where one of its functions answers, as feed's caller sees it."""
    left = [count]

    def step(frame, event, _):
        left[0] -= event in ("line", "return") and (event, frame.f_code.co_name) != ("return", "feed")
        if left[0] == 0:
            left[0] = -1
            raise Cut
        return step

    return lambda frame, event, _: step if frame.f_code.co_filename.endswith("/ristulva/decoder.py") else None


class CutOff(unittest.TestCase):
    """An exception in the middle of a call, as of a signal's handler: each message is answered, and once."""

    pieces = [STREAM[:50], STREAM[50:] + STREAM + message(4)[:7], message(4)[7:] + FAULTS[0] + message(4), message(4)]
    whole = [told(it) for it in ristulva.messages(b"".join(pieces), CONTEXT)]

    def fed(self, decoder, found, cut):
        """Feeds all pieces, each again where it wasn't consumed. Whether a call was interrupted."""
        fed, was_cut, kept = 0, False, sys.gettrace()
        for piece in self.pieces:
            fed += len(piece)
            while decoder.taken < fed:
                sys.settrace(cut)
                try:
                    found += decoder.feed(piece)
                except Cut:
                    was_cut = True
                finally:
                    sys.settrace(kept)
        found += decoder.feed(b"")
        return was_cut

    def test_each_step(self):
        for count in range(1, 10_000):
            found = []
            with Decoder(CONTEXT) as decoder:
                was_cut = self.fed(decoder, found, cutting(count))
            self.assertEqual(list(map(told, found)), self.whole, f"cut off at step {count}")
            if not was_cut:
                break
        self.assertGreater(count, 200)

    def test_signals(self):
        """Signals that come at any time."""

        def handle(*_):
            raise Cut

        octets, found, cuts = message(4) * 3000, [], 0
        before = signal.signal(signal.SIGALRM, handle)
        with Decoder(CONTEXT) as decoder:
            try:
                while cuts < 50:
                    wanted = decoder.taken + len(octets)
                    while decoder.taken < wanted:
                        signal.setitimer(signal.ITIMER_REAL, random.uniform(0.0005, 0.01))
                        try:
                            found += [it.place for it in decoder.feed(octets)]
                        except Cut:
                            cuts += 1
                        finally:
                            signal.setitimer(signal.ITIMER_REAL, 0)
            finally:
                signal.signal(signal.SIGALRM, before)
            found += [it.place for it in decoder.feed(b"")]
            self.assertEqual(found, list(range(0, decoder.taken, 19)))


class Ends(unittest.TestCase):
    def test_closed(self):
        with Decoder(CONTEXT) as decoder:
            decoder.feed(b"\xff")
        decoder.close()
        self.assertRaises(ristulva.DecoderClosed, decoder.feed, b"")
        self.assertRaises(ristulva.DecoderClosed, lambda: decoder.held)
        self.assertRaises(ristulva.DecoderClosed, lambda: decoder.taken)

    def test_arguments(self):
        with Decoder(CONTEXT) as decoder:
            for octets in (19, "octets", None):
                self.assertRaises(TypeError, decoder.feed, octets)
            self.assertEqual(decoder.held, 0)

    def test_freed(self):
        """What nothing refers to is freed: 40,000 decoders would be some 170 MB."""
        before = resource.getrusage(resource.RUSAGE_SELF).ru_maxrss
        for _ in range(40_000):
            Decoder(CONTEXT)
        gc.collect()
        unit = 1 if sys.platform == "darwin" else 1024
        self.assertLess((resource.getrusage(resource.RUSAGE_SELF).ru_maxrss - before) * unit, 40_000_000)

    def test_threads(self):
        """Calls of several threads wait for each other: whole messages stay whole."""
        decoder, found = Decoder(CONTEXT), []

        def work():
            for _ in range(300):
                found.extend([it.verdict for it in decoder.feed(UPDATE + message(4))])

        threads = [threading.Thread(target=work) for _ in range(4)]
        for thread in threads:
            thread.start()
        for thread in threads:
            thread.join()
        self.assertEqual((found.count("update"), found.count("keepalive"), len(found)), (1200, 1200, 2400))


if __name__ == "__main__":
    unittest.main()
