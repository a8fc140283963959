"""Tests of what everybody asks, by values written by hand; as test_message.py is run."""

import ipaddress
import unittest
import warnings

import ristulva

MARKER = b"\xff" * 16
ORIGIN = "40010102"
PATHS = "40020602 02fde95ba0 c01106020100030d40"  # 65001 23456, and 200000 of AS4_PATH
HOPS = "400304c0000201 800e2a 00020120 20010db8000000000000000000000001 fe800000000000000000000000000001 00 2020010db8"
GONE = "800f0a 000201 3020010db80001"
OTHERS = "80040400000007 40050400000064 400600 c007065ba0c0000209 c0120800030d40c0000209 c00808fde80001fde80002"
MORE = "c0200c0000fde80000000100000002 c0c802abcd c0c900"
# AS 65001, 180 s, both families and AS numbers of four octets; AS 200000, 90 s, IPv4 unicast and AS numbers of four octets.
OURS = "04fde900b4c0000201 16 0214 010400010001 010400020001 41040000fde9 0200"
THEIRS = "045ba0005ac0000202 0e 020c 010400010001 410400030d40"
TWO = ristulva.Context(internal=True, ip4=True, ip6=True)
FOUR = ristulva.Context(internal=True, as4=True, ip4=True, ip6=True)


def message(kind, body):
    return MARKER + (19 + len(body)).to_bytes(2, "big") + bytes([kind]) + body


def update(attributes):
    """An UPDATE that withdraws 10.1.0.0/16, with these attributes, and 10.0.0.0/8 as its NLRI."""
    field = bytes.fromhex(attributes)
    return message(2, bytes.fromhex("0003100a01") + len(field).to_bytes(2, "big") + field + bytes.fromhex("080a"))


def said(open_body):
    return message(1, bytes.fromhex(open_body))


class Facts(unittest.TestCase):
    def test_all(self):
        it = ristulva.judge(update(ORIGIN + PATHS + HOPS + GONE + OTHERS + MORE), TWO)
        facts = it.facts()
        self.assertEqual((facts.origin, facts.med, facts.local_pref, facts.atomic_aggregate, facts.unrecognised), ("INCOMPLETE", 7, 100, True, 2))
        self.assertEqual(facts.next_hop, ipaddress.IPv4Address("192.0.2.1"))
        self.assertEqual((facts.mp_next_hop, facts.link_local), (ipaddress.IPv6Address("2001:db8::1"), ipaddress.IPv6Address("fe80::1")))
        self.assertEqual((facts.aggregator, facts.origin_as), ((200000, ipaddress.IPv4Address("192.0.2.9")), 200000))
        self.assertEqual(it.octets[facts.as_path], bytes.fromhex("0202fde95ba0"))
        self.assertEqual(it.octets[facts.as4_path], bytes.fromhex("020100030d40"))
        self.assertEqual(it.octets[facts.communities], bytes.fromhex("fde80001fde80002"))
        self.assertEqual(it.octets[facts.large_communities], bytes.fromhex("0000fde80000000100000002"))
        self.assertEqual(facts, ristulva.judge(it.octets, TWO).facts())

    def test_nothing(self):
        """What is missing, or discarded, is None; so are the facts of what isn't accepted."""
        external = ristulva.Context(as4=True)
        it = ristulva.judge(update(ORIGIN + "40020c01010000fde901010000fdea 400304c0000201 40050400000064 c0110602010000fde9"), external)
        facts = it.facts()
        self.assertEqual((it.verdict, facts.local_pref, facts.as4_path, facts.origin_as, facts.mp_next_hop), ("update", None, None, None, None))
        self.assertEqual((facts.med, facts.aggregator, facts.communities, facts.link_local), (None, None, None, None))
        self.assertIsNone(ristulva.judge(update("40010109 400200 400304c0000201"), FOUR).facts())
        self.assertIsNone(ristulva.judge(message(4, b""), FOUR).facts())
        self.assertIsNone(ristulva.judge(bytes(19), FOUR).facts())


class Routes(unittest.TestCase):
    def test_order(self):
        """Those that are withdrawn, then those that are announced; all are withdrawn where the UPDATE is treated as a withdrawal."""
        found = [("10.1.0.0/16", False), ("2001:db8:1::/48", False), ("2001:db8::/32", True), ("10.0.0.0/8", True)]
        wanted = [ristulva.Route(ipaddress.ip_network(prefix), announced) for prefix, announced in found]
        self.assertEqual(ristulva.judge(update(ORIGIN + PATHS + HOPS + GONE), TWO).routes(), wanted)
        treated = ristulva.judge(update("40010109" + PATHS + HOPS + GONE), TWO).routes()
        self.assertEqual(treated, [ristulva.Route(it.prefix, False) for it in wanted])
        self.assertEqual(ristulva.judge(update(ORIGIN + PATHS + HOPS + HOPS), TWO).routes(), [])


class Agreement(unittest.TestCase):
    def test_agree(self):
        agreed = ristulva.Context(as4=True, ip4=True), 90
        self.assertEqual(ristulva.agree(said(OURS), said(THEIRS)), agreed)
        self.assertEqual(ristulva.agree(bytearray(said(THEIRS) + b"more"), memoryview(said(OURS))), agreed)
        self.assertEqual(ristulva.agree(said(OURS), said(OURS)), (ristulva.Context(True, True, True, True), 180))
        for other in (message(4, b""), said(THEIRS)[:-1], b"", said("03" + THEIRS[2:])):
            self.assertIsNone(ristulva.agree(said(OURS), other))
            self.assertIsNone(ristulva.agree(other, said(OURS)))

    def test_directions(self):
        """AS numbers have four octets since both say so, and IPv6 isn't in use."""
        sent = update(ORIGIN + "40020a02020000fde900030d40" + HOPS)
        one, other = ristulva.directions(said(OURS) + sent, said(THEIRS) + message(4, b""))
        one, other = list(one), list(other)
        self.assertEqual([it.verdict for it in one], ["open", "update"])
        self.assertEqual([it.verdict for it in other], ["open", "keepalive"])
        self.assertEqual(one[1].facts().origin_as, 200000)
        with warnings.catch_warnings(record=True) as found:
            warnings.simplefilter("always")
            self.assertEqual(len(one[1].routes()), 2)
        self.assertEqual([it.category for it in found], [ristulva.FamilyNotAgreed])
        with self.assertRaises(ValueError):
            ristulva.directions(said(OURS), sent)


class Names(unittest.TestCase):
    def test_names(self):
        self.assertEqual(ristulva.attribute_name(ristulva.AttributeType.COMMUNITIES), "COMMUNITY")
        self.assertEqual(ristulva.capability_name(ristulva.CapabilityCode.AS4), "Support for 4-octet AS number capability")
        self.assertEqual(ristulva.error_name(ristulva.ErrorCode.CEASE), "Cease")
        self.assertEqual(ristulva.subcode_name(ristulva.ErrorCode.CEASE, ristulva.CeaseError.ADMINISTRATIVE_SHUTDOWN), "Administrative Shutdown")
        self.assertEqual((ristulva.attribute_name(11), ristulva.attribute_name(300), ristulva.subcode_name(6, 0)), ("", "", ""))


if __name__ == "__main__":
    unittest.main()
