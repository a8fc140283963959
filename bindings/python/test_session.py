"""Tests of sessions: two of them, whose octets go from one to the other by buffers. What each does is what docs/LIBRARY.md and the RFCs say."""

import gc
import ipaddress
import itertools
import pathlib
import resource
import sys
import threading
import unittest
import warnings

import ristulva
from ristulva import Announce, Arm, Close, Config, Disarm, Event, Flush, Seek, Send, Session, State, Timer, Withdraw

LOCAL = Config(65001, 65002, ipaddress.IPv4Address("192.0.2.1"), hold_time=30, ip6=True)
REMOTE = Config(65002, 65001, "192.0.2.2")
# The body of an UPDATE: 10.0.0.0/8 by the path 70000 65001, next hop 192.0.2.1; and the same by 65001 alone and without a next hop.
ANNOUNCEMENT = bytes.fromhex("0000" + "0018" + "40010100" + "40020a0202000111700000fde9" + "400304c0000201" + "080a")
WITHOUT_HOP = bytes.fromhex("0000" + "000d" + "40010100" + "40020602010000fde9" + "080a")


def message(kind, body=b""):
    return b"\xff" * 16 + (19 + len(body)).to_bytes(2, "big") + bytes([kind]) + body


def notification(*octets):
    return Send(message(3, bytes(octets)))


# What is done where a session ends from Established.
LEFT = [Close(), Disarm(Timer.HOLD), Disarm(Timer.KEEPALIVE), Flush()]


class Side:
    """A session, and what arrived for it."""

    def __init__(self, config):
        self.session, self.held, self.peer = Session(config), b"", None

    def done(self, actions):
        """What is sent arrives at the peer."""
        self.peer.held += b"".join(it.message for it in actions if isinstance(it, Send))
        return actions

    def happens(self, event):
        return self.done(self.session.event(event))

    def hears(self):
        """Receives the first message that arrived; None where there is none."""
        heard = self.session.hear(self.held)
        if heard:
            self.held = self.held[heard.taken :]
            self.done(heard.actions)
        return heard


def connected(local=LOCAL, remote=REMOTE):
    """Two sides in OpenSent, the OPEN of each at the other."""
    one, other = Side(local), Side(remote)
    one.peer, other.peer = other, one
    for event in (Event.START, Event.CONNECTED):
        one.happens(event)
        other.happens(event)
    return one, other


def established(local=LOCAL, remote=REMOTE):
    one, other = connected(local, remote)
    while one.hears() or other.hears():
        pass
    assert one.session.state == other.session.state == State.ESTABLISHED
    return one, other


class Life(unittest.TestCase):
    def test_comes_up(self):
        one, other = Side(LOCAL), Side(REMOTE)
        one.peer, other.peer = other, one
        self.assertIs(one.session.state, State.IDLE)
        self.assertEqual(one.happens(Event.START), [Arm(Timer.RETRY, 120), Seek()])
        self.assertIs(one.session.state, State.CONNECT)
        wanted = [Disarm(Timer.RETRY), Send(one.session.open_message), Arm(Timer.HOLD, 240)]
        self.assertEqual(one.happens(Event.CONNECTED), wanted)
        self.assertIs(one.session.state, State.OPEN_SENT)
        self.assertIsNone(one.hears())

        other.happens(Event.START)
        other.happens(Event.CONNECTED)
        for side, number in ((one, 65002), (other, 65001)):
            heard = side.hears()
            self.assertEqual((heard.verdict, heard.message.open().as_number), ("open", number))
            self.assertEqual(heard.actions, [Send(message(4)), Arm(Timer.HOLD, 30), Arm(Timer.KEEPALIVE, 10)])
            self.assertIs(side.session.state, State.OPEN_CONFIRM)
        for side in (one, other):
            heard = side.hears()
            self.assertEqual((heard.verdict, heard.taken, heard.actions), ("keepalive", 19, [Arm(Timer.HOLD, 30)]))
            self.assertIs(side.session.state, State.ESTABLISHED)
            self.assertIsNone(side.hears())

    def test_open_message(self):
        it = ristulva.judge(Session(LOCAL).open_message, ristulva.Context()).open()
        self.assertEqual((it.as_number, it.hold_time, it.identifier), (65001, 30, LOCAL.identifier))

    def test_agreed(self):
        """The smaller Hold Time (RFC 4271, section 4.2), and what both offer (RFC 4760, section 8)."""
        one, other = established()
        for side in (one, other):
            self.assertEqual(side.session.context, ristulva.Context(as4=True, ip4=True))
            self.assertEqual(side.session.hold_time, 30)
        self.assertEqual(other.session.peer, ristulva.Peer(65001, LOCAL.identifier, 30, True, True, True, [1, 65]))

    def test_inside(self):
        """A session with a peer of the same AS, for IPv6 alone, with 2-octet AS numbers."""
        one, _ = established(*(Config(65001, 65001, it, as4=False, ip4=False, ip6=True) for it in ("192.0.2.1", "192.0.2.2")))
        self.assertEqual(one.session.context, ristulva.Context(internal=True, ip6=True))
        self.assertEqual(one.session.peer, ristulva.Peer(65001, ipaddress.IPv4Address("192.0.2.2"), 90, False, False, True, [1]))

    def test_nothing_agreed(self):
        one, _ = connected()
        self.assertEqual((one.session.context, one.session.hold_time, one.session.peer), (None, None, None))

    def test_stop(self):
        one, other = established()
        self.assertEqual(one.happens(Event.STOP), [notification(6, 0), *LEFT])
        heard = other.hears()
        self.assertEqual((heard.verdict, heard.message.notification, heard.actions), ("notification", (6, 0, b""), LEFT))
        for side in (one, other):
            self.assertIs(side.session.state, State.IDLE)
            self.assertEqual((side.session.context, side.session.peer), (None, None))
            self.assertIsNone(side.session.hear(message(4)))
            self.assertEqual(side.session.event(Event.STOP), [])

    def test_sought_again(self):
        """Before it is up a connection is sought again when the Retry Timer has expired."""
        one = Side(LOCAL)
        one.peer = Side(REMOTE)
        one.happens(Event.START)
        self.assertEqual(one.happens(Timer.RETRY.expired), [Close(), Arm(Timer.RETRY, 120), Seek()])
        one.happens(Event.CONNECTED)
        self.assertEqual(one.happens(Event.FAILED), [Disarm(Timer.HOLD), Arm(Timer.RETRY, 120)])
        self.assertIs(one.session.state, State.ACTIVE)
        self.assertEqual(one.happens(Timer.RETRY.expired), [Arm(Timer.RETRY, 120), Seek()])
        self.assertIs(one.session.state, State.CONNECT)

    def test_expired_and_failed(self):
        one, other = established()
        self.assertEqual(one.happens(Event.KEEPALIVE_EXPIRED), [Send(message(4)), Arm(Timer.KEEPALIVE, 10)])
        self.assertEqual(one.happens(Timer.RETRY.expired), [])
        # A timer that has expired doesn't run.
        self.assertEqual(one.happens(Timer.HOLD.expired), [notification(4, 0), *[it for it in LEFT if it != Disarm(Timer.HOLD)]])
        self.assertEqual(other.happens(Event.FAILED), LEFT[1:])

    def test_no_hold_time(self):
        one, _ = established(remote=Config(65002, 65001, "192.0.2.2", hold_time=0))
        self.assertEqual(one.session.hold_time, 0)
        self.assertEqual(one.session.send(ANNOUNCEMENT), [Send(message(2, ANNOUNCEMENT))])

    def test_family_not_agreed(self):
        """A warning at the OPEN that offers IPv6 unicast to a Config without it, and none where both have it or neither."""
        for theirs, ours in itertools.product((False, True), repeat=2):
            one, other = connected(Config(65001, 65002, "192.0.2.1", ip6=theirs), Config(65002, 65001, "192.0.2.2", ip6=ours))
            with warnings.catch_warnings(record=True) as found:
                warnings.simplefilter("always")
                other.hears()
            wanted = [(ristulva.FamilyNotAgreed, "the peer offers ip6, and the session's Config doesn't")] if theirs and not ours else []
            self.assertEqual([(it.category, str(it.message)) for it in found], wanted)


class Updates(unittest.TestCase):
    def test_routes(self):
        one, other = established()
        actions = one.session.send(ANNOUNCEMENT)
        self.assertEqual(actions, [Send(message(2, ANNOUNCEMENT)), Arm(Timer.KEEPALIVE, 10)])
        one.done(actions)
        heard = other.hears()
        self.assertEqual((heard.verdict, heard.taken), ("update", 19 + len(ANNOUNCEMENT)))
        self.assertEqual(heard.actions, [Announce(heard.message), Arm(Timer.HOLD, 30)])
        self.assertEqual(list(heard.message.announced()), [ipaddress.ip_network("10.0.0.0/8")])
        self.assertEqual(heard.message.as_path(), [(2, [70000, 65001])])
        judged = ristulva.judge(message(2, ANNOUNCEMENT), other.session.context)
        self.assertEqual(str(heard.message), str(judged))
        self.assertEqual(bytes(heard.message.found), bytes(judged.found))

    def test_two_octets(self):
        """A speaker with AS numbers of two octets gets 23456, and AS4_PATH (RFC 6793, section 4.2.2)."""
        one, other = established(remote=Config(65002, 65001, "192.0.2.2", as4=False))
        one.done(one.session.send(ANNOUNCEMENT))
        it = other.hears().message
        self.assertEqual(it.as_path(), [(2, [23456, 65001])])
        self.assertEqual(it.first(17).value, bytes.fromhex("0202000111700000fde9"))

    def test_withdrawal(self):
        """A mandatory attribute is missing (RFC 7606, section 3, item d): the session stays up."""
        _, other = established()
        other.held = message(2, WITHOUT_HOP)
        heard = other.hears()
        self.assertEqual((heard.verdict, heard.actions), ("withdraw", [Withdraw(heard.message), Arm(Timer.HOLD, 30)]))
        self.assertEqual(list(heard.message.notes()), [(0, 3, "Missing")])
        self.assertIs(other.session.state, State.ESTABLISHED)

    def test_pieces(self):
        """Less than a message changes nothing, and what follows one is ignored."""
        _, other = established()
        octets = message(2, ANNOUNCEMENT) + message(9)
        size = 19 + len(ANNOUNCEMENT)
        for end in range(size):
            self.assertIsNone(other.session.hear(octets[:end]))
        for piece in (bytearray(octets), memoryview(octets)):
            self.assertEqual(other.session.hear(piece).taken, size)
        self.assertEqual(other.session.hear(octets[size:]).message.notification, (1, 3, b"\x09"))

    def test_refused(self):
        """Also where there are routes of two kinds (RFC 7606, section 5.1)."""
        one, _ = established()
        mixed = bytes.fromhex("0002080c") + ANNOUNCEMENT[2:]
        for body, why in ((WITHOUT_HOP, "not accepted whole"), (mixed, "routes of several kinds"), (bytes(4078), "too long a body")):
            with self.assertRaisesRegex(ristulva.Refused, why):
                one.session.send(body)

    def test_state_first(self):
        """In all states but Established no body is read."""
        confirming, other = connected()
        confirming.hears()
        self.assertIs(confirming.session.state, State.OPEN_CONFIRM)
        self.assertIs(other.session.state, State.OPEN_SENT)
        for session in (confirming.session, other.session, Session(LOCAL)):
            for body in (ANNOUNCEMENT, WITHOUT_HOP, b"\xff", bytes(4078)):
                with self.assertRaises(ristulva.WrongState):
                    session.send(body)


class Faults(unittest.TestCase):
    def test_header(self):
        """A Length that isn't that of its type (RFC 4271, section 6.1)."""
        one, other = established()
        other.held = message(4, b"\0")
        heard = other.hears()
        self.assertEqual((heard.verdict, heard.taken, heard.message.notification), ("reset", 19, (1, 2, b"\x00\x14")))
        self.assertEqual(heard.actions, [notification(1, 2, 0, 20), *LEFT])
        self.assertEqual(str(heard.message), str(ristulva.judge(message(4, b"\0"), ristulva.Context())))
        self.assertIs(other.session.state, State.IDLE)
        heard = one.hears()
        self.assertEqual((heard.message.notification, heard.actions), ((1, 2, b"\x00\x14"), LEFT))
        self.assertIs(one.session.state, State.IDLE)

    def test_update(self):
        """Withdrawn Routes that are longer than the message (RFC 4271, section 6.3)."""
        _, other = established()
        other.held = message(2, bytes.fromhex("00090000"))
        heard = other.hears()
        self.assertEqual((heard.message.notification, heard.actions), ((3, 1, b""), [notification(3, 1), *LEFT]))

    def test_open(self):
        """Another AS number than the peer has to have (RFC 4271, section 6.2)."""
        one, _ = connected(remote=Config(65003, 65001, "192.0.2.2"))
        heard = one.hears()
        self.assertEqual((heard.verdict, heard.message.notification), ("reset", (2, 2, b"")))
        self.assertEqual(heard.message.open().as_number, 65003)

    def test_early_update(self):
        """RFC 6608, section 4."""
        one, _ = connected()
        one.held = message(2, ANNOUNCEMENT)
        self.assertEqual(one.hears().actions[0], notification(5, 1, 2))


    def test_changed_octets(self):
        """Whatever one octet is, a session that is up receives what `judge` finds, and ends exactly where a NOTIFICATION is received or sent."""
        for octets in (message(2, ANNOUNCEMENT), message(2, WITHOUT_HOP), notification(6, 2).message, message(4)):
            for at, octet in itertools.product(range(len(octets)), (0, 1, 0xff)):
                changed = octets[:at] + bytes([octet]) + octets[at + 1 :]
                _, other = established()
                judged, heard = ristulva.judge(changed, other.session.context), other.session.hear(changed)
                with self.subTest(changed.hex()):
                    self.assertEqual(heard is None, judged is None)
                    if heard and judged.verdict != "open" and judged.found.kind != 1:
                        self.assertEqual(told(heard.message), told(judged))
                        self.assertEqual(other.session.state == State.IDLE, judged.notification is not None)


def told(it):
    """What a message reports; of one that ends the session no routes."""
    routes = [] if it.verdict == "reset" else [*it.announced(), *it.withdrawn()]
    return str(it), it.verdict, it.notification, it.found.kind, it.found.len, routes


class Arguments(unittest.TestCase):
    def test_configs(self):
        """RFC 7607; RFC 6793, section 4.1; RFC 6286, section 2.1; RFC 4271, section 4.2; and what ctypes would cut off."""
        good = {"local_as": 65001, "peer_as": 65002, "identifier": "192.0.2.1"}
        for name, value in (("local_as", 0), ("peer_as", 0), ("identifier", "0.0.0.0"), ("hold_time", 2), ("local_as", (1 << 32) + 65001),
                            ("peer_as", -1), ("hold_time", 1 << 16), ("identifier", "192.0.2"), ("identifier", "::1")):
            with self.subTest(name, value=value), self.assertRaises(ValueError):
                Session(Config(**{**good, name: value}))
        with self.assertRaises(ValueError):
            Session(Config(70000, 65002, "192.0.2.1", as4=False))
        with self.assertRaises(TypeError):
            Session(Config("65001", 65002, "192.0.2.1"))

    def test_others(self):
        with Session(LOCAL) as session:
            for event in (3, (1 << 32) + 1, "START"):
                with self.assertRaises(ValueError):
                    session.event(event)
            for octets in (19, "octets", None):
                with self.assertRaises(TypeError):
                    session.hear(octets)
                with self.assertRaises(TypeError):
                    session.send(octets)
            self.assertIs(session.state, State.IDLE)


class Ends(unittest.TestCase):
    def test_closed(self):
        with Session(LOCAL) as session:
            self.assertEqual(len(session.event(Event.START)), 2)
        session.close()
        calls = [lambda: session.event(Event.STOP), lambda: session.hear(message(4)), lambda: session.send(bytes(4078)), lambda: session.state,
                 lambda: session.context, lambda: session.hold_time, lambda: session.peer, lambda: session.open_message]
        for call in calls:
            self.assertRaises(ristulva.SessionClosed, call)

    def test_freed(self):
        """What nothing refers to is freed: 40,000 sessions would be some 180 MB."""
        before = resource.getrusage(resource.RUSAGE_SELF).ru_maxrss
        for _ in range(40_000):
            Session(LOCAL)
        gc.collect()
        unit = 1 if sys.platform == "darwin" else 1024
        self.assertLess((resource.getrusage(resource.RUSAGE_SELF).ru_maxrss - before) * unit, 40_000_000)

    def test_threads(self):
        """Calls of several threads wait for each other."""
        one, _ = established()
        failed = []

        def work():
            for _ in range(500):
                if one.session.event(Event.KEEPALIVE_EXPIRED)[1:] != [Arm(Timer.KEEPALIVE, 10)] or one.session.hear(message(4)).taken != 19:
                    failed.append(1)

        threads = [threading.Thread(target=work) for _ in range(4)]
        for thread in threads:
            thread.start()
        for thread in threads:
            thread.join()
        self.assertEqual((failed, one.session.state), ([], State.ESTABLISHED))


class Documents(unittest.TestCase):
    @unittest.skipIf(sys.version_info < (3, 10), "it has a match")
    def test_program(self):
        """The program of docs/C.md prints what is shown there."""
        text = (pathlib.Path(__file__).resolve().parents[2] / "docs/C.md").read_text()
        program = text.split("```python\n")[1].split("```\n")[0]
        printed = []
        exec(compile(program, "docs/C.md", "exec"), {"print": lambda *words: printed.append(" ".join(map(str, words)))})
        self.assertEqual(printed, ["65001: 10.0.0.0/8 by [(2, [65001])]", "65002: all routes are gone", "65001: all routes are gone"])


if __name__ == "__main__":
    unittest.main()
