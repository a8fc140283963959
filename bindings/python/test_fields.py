"""The fields of messages and the octets of faults: values by hand, and the captures of examples/."""

import pathlib
import unittest

import ristulva

EXAMPLES = pathlib.Path(__file__).resolve().parent.parent.parent / "examples"
MARKER = b"\xff" * 16
CONTEXT = ristulva.Context(as4=True, ip4=True, ip6=True)


def message(kind, digits):
    body = bytes.fromhex(digits)
    return MARKER + (19 + len(body)).to_bytes(2, "big") + bytes([kind]) + body


def judged(kind, digits):
    return ristulva.judge(message(kind, digits), CONTEXT)


class TestFields(unittest.TestCase):
    def test_update(self):
        """One that withdraws 192.0.2.0/24, and has an ORIGIN (RFC 4271, section 4.3)."""
        found = [(it.at, it.octets.hex(), it.kind, it.group) for it in judged(2, "0004 18c00002 0004 40010100").fields()]
        self.assertEqual(found, [
            (0, "ff" * 16, "Marker", None), (16, "001f", "MessageLength", None), (18, "02", "MessageType", None), (19, "0004", "WithdrawnLength", None),
            (21, "18c00002", "WithdrawnPrefix", None), (25, "0004", "AttributesLength", None), (27, "40", "AttributeFlags", (27, 1)),
            (28, "01", "AttributeType", (27, 1)), (29, "01", "AttributeLength", (27, 1)), (30, "00", "Origin", (27, 1)),
        ])

    def test_names(self):
        fields = judged(3, "0602").fields()
        self.assertEqual([it.name for it in fields], ["Marker", "Length", "Type", "Error Code", "Error Subcode"])
        self.assertEqual(len(ristulva.KINDS), 44)

    def test_open(self):
        """A capability for AS numbers of four octets (RFC 6793, section 3)."""
        fields = judged(1, "04 fde8 005a c0000201 08 0206 4104 0000fde8").fields()
        self.assertEqual([(it.at, it.kind, it.group) for it in fields[8:]], [
            (29, "ParameterType", (29, 2)), (30, "ParameterLength", (29, 2)), (31, "CapabilityCode", (31, 65)), (32, "CapabilityLength", (31, 65)),
            (33, "AsNumber", (31, 65)),
        ])

    def test_faults(self):
        """An unknown type; a hold time of 2; a Total Path Attribute Length that leaves no room; a well-known attribute of type 99; nothing."""
        for kind, digits, wanted in (
            (9, "", (18, 1)), (1, "04 fde8 0002 c0000201 00", (22, 2)), (2, "0000 0005 40010100", (21, 2)), (2, "0000 0008 40010100 40630105", (27, 4)),
            (2, "0000 0000", None), (4, "", None),
        ):
            self.assertEqual(judged(kind, digits).fault(), wanted)
        marker = ristulva.judge(b"\xff" * 7 + b"\0" * 12, CONTEXT)
        self.assertEqual(marker.fault(), (7, 1))
        self.assertEqual([it.kind for it in marker.fields()], ["Marker", "MessageLength", "MessageType"])

    def test_sections(self):
        """Of an IPv6 next hop of 17 octets; of an MP_UNREACH_NLRI that is transitive; of an ORIGIN of 3 where nothing is announced; of nothing; of notes."""
        reach = "0000 001a 800e17 000201 11 20010db8000000000000000000000001 00 00 00"
        for kind, digits, wanted in (
            (2, reach, "RFC 7606, section 7.11"), (2, "0000 0006 c00f03 000201", "own rule"), (2, "0000 0004 40010103", "RFC 7606, section 5.2"),
            (1, "04 fde8 0002 c0000201 00", "RFC 4271, section 6.2"), (9, "", "RFC 4271, section 6.1"), (4, "", ""),
        ):
            self.assertEqual(judged(kind, digits).fault_section(), wanted)
        self.assertEqual(ristulva.note_section(1, "Value"), "RFC 7606, section 7.1")
        self.assertEqual(ristulva.note_section(14, "Family"), "RFC 4760, section 8")
        self.assertEqual(ristulva.note_section(3, "Unneeded"), "RFC 4760, section 3")

    def test_captures(self):
        """The fields of each message are its octets; a fault is within it, just where it ends the session."""
        for path in sorted(EXAMPLES.glob("*.hex")):
            for it in ristulva.messages(bytes.fromhex(path.read_text()), CONTEXT):
                with self.subTest(path.name):
                    self.assertEqual(b"".join(field.octets for field in it.fields()), it.octets)
                    self.assertEqual(it.fault() is not None, it.verdict == "reset")
                    if it.verdict != "reset" and not it.notes():
                        self.assertNotIn("Unread", [field.kind for field in it.fields()])


if __name__ == "__main__":
    unittest.main()
