//! The fields of messages and the octets of faults: values by hand.

use ristulva::{judge, Context, FieldKind, Group, Note, Why};

const CONTEXT: Context = Context {
    internal: false,
    as4: true,
    ip4: true,
    ip6: true,
};

fn message(kind: u8, body: &[u8]) -> Vec<u8> {
    let len = (19 + body.len()) as u16;
    [&[0xff; 16][..], &len.to_be_bytes(), &[kind], body].concat()
}

/// One that withdraws 192.0.2.0/24, and has an ORIGIN (RFC 4271, section 4.3).
#[test]
fn the_fields_of_an_update() {
    let octets = message(2, &[0, 4, 24, 192, 0, 2, 0, 4, 0x40, 1, 1, 0]);
    let origin = Some(Group { at: 27, code: 1 });
    let wanted = [
        (0, 16, FieldKind::Marker, None),
        (16, 2, FieldKind::MessageLength, None),
        (18, 1, FieldKind::MessageType, None),
        (19, 2, FieldKind::WithdrawnLength, None),
        (21, 4, FieldKind::WithdrawnPrefix, None),
        (25, 2, FieldKind::AttributesLength, None),
        (27, 1, FieldKind::AttributeFlags, origin),
        (28, 1, FieldKind::AttributeType, origin),
        (29, 1, FieldKind::AttributeLength, origin),
        (30, 1, FieldKind::Origin, origin),
    ];
    let fields = judge(&CONTEXT, &octets).unwrap().fields();
    let found: Vec<_> = fields
        .iter()
        .map(|it| (it.at, it.octets.len(), it.kind, it.group))
        .collect();
    assert_eq!(found, wanted);
    let joined: Vec<u8> = fields.iter().flat_map(|it| it.octets).copied().collect();
    assert_eq!(joined, octets);
    assert_eq!(fields[4].kind.to_string(), "Withdrawn Routes");
    assert_eq!(FieldKind::Unread.to_string(), "unread");
}

/// An unknown type; a hold time of 2; a Total Path Attribute Length that leaves no room; a
/// well-known attribute of type 99; nothing.
#[test]
fn the_places_of_faults() {
    let cases = [
        (message(9, &[]), Some(18..19)),
        (
            message(1, &[4, 253, 232, 0, 2, 192, 0, 2, 1, 0]),
            Some(22..24),
        ),
        (message(2, &[0, 0, 0, 5, 0x40, 1, 1, 0]), Some(21..23)),
        (
            message(2, &[0, 0, 0, 8, 0x40, 1, 1, 0, 0x40, 99, 1, 5]),
            Some(27..31),
        ),
        (message(4, &[]), None),
    ];
    for (octets, wanted) in cases {
        assert_eq!(judge(&CONTEXT, &octets).unwrap().fault(), wanted);
    }
    let marker = [&[0xff; 7][..], &[0; 12]].concat();
    let message = judge(&CONTEXT, &marker).unwrap();
    assert_eq!(message.fault(), Some(7..8));
    assert_eq!(message.fields().len(), 3);
}

/// An MP_UNREACH_NLRI of two octets; one that is transitive; an ORIGIN of 3 where nothing is
/// announced; an unknown type; nothing. And of a note.
#[test]
fn the_sections_of_faults() {
    let cases = [
        (message(2, &[0, 0, 0, 5, 0x80, 15, 2, 0, 2]), "RFC 7606, section 5.3"),
        (message(2, &[0, 0, 0, 6, 0xc0, 15, 3, 0, 2, 1]), "own rule"),
        (message(2, &[0, 0, 0, 4, 0x40, 1, 1, 3]), "RFC 7606, section 5.2"),
        (message(9, &[]), "RFC 4271, section 6.1"),
        (message(4, &[]), ""),
    ];
    for (octets, wanted) in cases {
        assert_eq!(judge(&CONTEXT, &octets).unwrap().fault_section(), wanted);
    }
    let note = Note {
        at: Some(23),
        kind: 14,
        why: Why::Family,
    };
    assert_eq!(note.section(), "RFC 4760, section 8");
}
