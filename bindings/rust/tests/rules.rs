//! Worked examples of the rules of the RFCs, written by hand.

use ristulva::{
    encode, front, judge, messages, narrow, reconcile, Cleaned, Context, End, Error, Front,
    HandedOn, Kind, NextHop, Note, Outcome, SegmentKind, Shown, Update, Why,
};

const PLAIN: Context = Context {
    internal: false,
    as4: false,
    ip4: false,
    ip6: false,
};

const AS4: Context = Context { as4: true, ..PLAIN };

/// A path attribute with a length of one octet.
fn attribute(flags: u8, kind: u8, value: &[u8]) -> Vec<u8> {
    [&[flags, kind, value.len() as u8], value].concat()
}

/// The body of an UPDATE.
fn body(withdrawn: &[u8], attributes: &[Vec<u8>], nlri: &[u8]) -> Vec<u8> {
    let attributes = attributes.concat();
    let size = |field: &[u8]| (field.len() as u16).to_be_bytes();
    [
        &size(withdrawn)[..],
        withdrawn,
        &size(&attributes),
        &attributes,
        nlri,
    ]
    .concat()
}

fn message(kind: u8, body: &[u8]) -> Vec<u8> {
    let len = (19 + body.len() as u16).to_be_bytes();
    [&[0xff; 16][..], &len, &[kind], body].concat()
}

fn origin() -> Vec<u8> {
    attribute(0x40, 1, &[0])
}

/// AS_SEQUENCE 65000 200000, in four octets each.
fn path() -> Vec<u8> {
    attribute(0x40, 2, &[2, 2, 0, 0, 0xfd, 0xe8, 0, 3, 0x0d, 0x40])
}

fn next_hop() -> Vec<u8> {
    attribute(0x40, 3, &[192, 0, 2, 1])
}

/// 10.0.0.0/8 with the mandatory attributes (RFC 4271, section 5).
fn simple() -> Vec<u8> {
    body(&[], &[origin(), path(), next_hop()], &[8, 10])
}

fn taken<'a>(context: &Context, octets: &'a [u8]) -> Update<'a> {
    match judge(context, octets).expect("a message").into_outcome() {
        Outcome::Update(update) => update,
        other => panic!("{other:?}"),
    }
}

fn told(values: impl Iterator<Item = impl ToString>) -> Vec<String> {
    values.map(|value| value.to_string()).collect()
}

fn reset(code: u8, subcode: u8, data: &[u8]) -> Outcome<'static> {
    Outcome::Reset {
        code,
        subcode,
        data: data.to_vec(),
    }
}

#[test]
fn shared_between_threads() {
    fn is_shared<T: Send + Sync>() {}
    is_shared::<ristulva::Message<'static>>();
    is_shared::<ristulva::Prefixes<'static>>();
    is_shared::<Error>();
}

fn routes(context: &Context, octets: &[u8]) -> Vec<String> {
    told(judge(context, octets).expect("a message").routes())
}

/// RFC 7606, section 2: an UPDATE that is treated as a withdrawal withdraws all of its routes.
#[test]
fn routes_of_messages() {
    let with = |origin| {
        let attributes = [attribute(0x40, 1, &[origin]), path(), next_hop()];
        message(2, &body(&[16, 10, 1], &attributes, &[8, 10]))
    };
    let kept = ["withdraw 10.1.0.0/16", "announce 10.0.0.0/8"];
    assert_eq!(routes(&AS4, &with(2)), kept);
    // There is no ORIGIN 3 (RFC 4271, section 4.3).
    let withdrawn = ["withdraw 10.1.0.0/16", "withdraw 10.0.0.0/8"];
    assert_eq!(routes(&AS4, &with(3)), withdrawn);
    assert!(routes(&AS4, &message(4, &[])).is_empty());
}

/// RFC 4760, section 4: 2001:db8::/32 is withdrawn.
#[test]
fn routes_of_a_family_that_is_not_in_use() {
    let unreach = attribute(0x80, 15, &[0, 2, 1, 32, 0x20, 1, 0x0d, 0xb8]);
    let octets = message(2, &body(&[], &[unreach], &[]));
    let ip6 = Context { ip6: true, ..AS4 };
    assert_eq!(routes(&ip6, &octets), ["withdraw 2001:db8::/32"]);
    assert!(!taken(&ip6, &octets).has_ip6_unused());
    assert!(routes(&AS4, &octets).is_empty());
    assert!(taken(&AS4, &octets).has_ip6_unused());
    let simple = message(2, &simple());
    assert!(!taken(&AS4, &simple).has_ip6_unused());
}

/// RFC 4271, section 4.1.
#[test]
fn front_of_octets() {
    let update = message(2, &simple());
    assert_eq!(front(&[]), Front::More { wanted: 19 });
    assert_eq!(front(&update[..18]), Front::More { wanted: 19 });
    let wanted = update.len();
    assert_eq!(front(&update[..wanted - 1]), Front::More { wanted });
    let more = [&update[..], &[1, 2, 3]].concat();
    let found = Front::Found {
        kind: Kind::Update,
        octets: &update,
    };
    assert_eq!(front(&more), found);
}

/// RFC 4271, section 6.1: not synchronized without data, a bad length with the Length field, a bad
/// type with the Type.
#[test]
fn faults_of_headers() {
    let mut marker = message(4, &[]);
    marker[3] = 0;
    let mut short = message(4, &[]);
    short[17] = 18;
    let unknown = message(9, &[]);
    for (octets, subcode, data) in [
        (marker, 1, &[][..]),
        (short, 2, &[0, 18]),
        (unknown, 3, &[9]),
    ] {
        let code = 1;
        assert_eq!(
            front(&octets),
            Front::Fault {
                code,
                subcode,
                data
            }
        );
        let it = judge(&PLAIN, &octets).expect("a fault");
        assert_eq!(it.outcome(), &reset(code, subcode, data));
        assert_eq!(it.octets(), &[]);
        assert_eq!(it.body(), &[]);
        // Octets after the header have no effect.
        let more = [&octets[..], &message(4, &[])].concat();
        assert_eq!(judge(&PLAIN, &more), Some(it));
    }
}

#[test]
fn incomplete() {
    let octets = message(2, &simple());
    for len in 0..octets.len() {
        assert_eq!(judge(&AS4, &octets[..len]), None);
    }
    assert_eq!(messages(&AS4, &octets[..30]).rest().len(), 30);
}

/// RFC 4271, section 4.2: version, AS, hold time, identifier, no parameters. Section 6.2: the
/// highest version is answered.
#[test]
fn opens() {
    let good = message(1, &[4, 0xfd, 0xe8, 0, 90, 192, 0, 2, 1, 0]);
    let Outcome::Open(it) = judge(&PLAIN, &good).unwrap().into_outcome() else {
        panic!("it isn't accepted")
    };
    let numbers = (it.as_number(), it.as_field(), it.hold_time());
    assert_eq!(numbers, (65000, 65000, 90));
    assert_eq!(it.identifier().to_string(), "192.0.2.1");
    assert_eq!(it.capabilities().count(), 0);
    assert!(!it.offers_as4() && !it.offers_ip4() && !it.offers_ip6());
    let old = message(1, &[3, 0xfd, 0xe8, 0, 90, 192, 0, 2, 1, 0]);
    assert_eq!(
        judge(&PLAIN, &old).unwrap().outcome(),
        &reset(2, 1, &[0, 4])
    );
    let hasty = message(1, &[4, 0xfd, 0xe8, 0, 2, 192, 0, 2, 1, 0]);
    assert_eq!(judge(&PLAIN, &hasty).unwrap().outcome(), &reset(2, 6, &[]));
}

/// RFC 5492, section 4: capabilities in one parameter, and each in one of its own after an empty
/// one. RFC 6793, section 4.1: 23456 stands for 131073.
#[test]
fn capabilities() {
    let caps = [
        &[1, 4, 0, 1, 0, 1][..],
        &[2, 0],
        &[65, 4, 0, 2, 0, 1],
        &[1, 4, 0, 2, 0, 1],
    ];
    let parameter = |caps: &[u8]| [&[2, caps.len() as u8], caps].concat();
    let one = parameter(&caps.concat());
    let many: Vec<u8> = std::iter::once(&[][..])
        .chain(caps)
        .flat_map(parameter)
        .collect();
    for parameters in [one, many] {
        let fixed = [4, 0x5b, 0xa0, 0, 90, 192, 0, 2, 2, parameters.len() as u8];
        let octets = message(1, &[&fixed[..], &parameters].concat());
        let Outcome::Open(it) = judge(&PLAIN, &octets).unwrap().into_outcome() else {
            panic!("it isn't accepted")
        };
        assert_eq!((it.as_number(), it.as_field()), (131073, 23456));
        assert!(it.offers_as4() && it.offers_ip4() && it.offers_ip6());
        let found: Vec<_> = it.capabilities().map(|it| (it.code, it.value)).collect();
        let wanted: Vec<_> = caps.iter().map(|it| (it[0], &it[2..])).collect();
        assert_eq!(found, wanted);
    }
}

/// RFC 4271, section 4.5; RFC 9003: an administrative shutdown with a word.
#[test]
fn notification() {
    let octets = message(3, b"\x06\x02\x03bye");
    let it = judge(&PLAIN, &octets).unwrap();
    let wanted = Outcome::Notification {
        code: 6,
        subcode: 2,
        data: b"\x03bye",
    };
    assert_eq!(it.outcome(), &wanted);
    // The data are borrowed from what was passed in.
    let Outcome::Notification { data, .. } = it.into_outcome() else {
        unreachable!()
    };
    assert!(std::ptr::eq(data, &octets[21..]));
}

/// RFC 4271, section 4.4.
#[test]
fn keepalive() {
    let octets = message(4, &[]);
    let it = judge(&PLAIN, &octets).unwrap();
    assert_eq!(it.outcome(), &Outcome::Keepalive);
    assert_eq!(it.at(131).to_string(), "131 19 KEEPALIVE\n");
}

/// Each reset ends a stream.
#[test]
fn stream() {
    let (good, bad) = (message(4, &[]), message(2, &[0, 9, 0, 0]));
    let octets = [&good[..], &good, &bad, &good].concat();
    let mut stream = messages(&PLAIN, &octets);
    let offsets: Vec<_> = stream.by_ref().map(|it| it.offset()).collect();
    assert_eq!(offsets, [0, 19, 38]);
    assert_eq!(stream.rest(), good);
    assert!(stream.next().is_none());
    // Withdrawn Routes that are longer than the message: Malformed Attribute List (RFC 4271,
    // section 6.3).
    let last = messages(&PLAIN, &octets).last().unwrap();
    assert_eq!(last.outcome(), &reset(3, 1, &[]));
}

/// RFC 4271, section 4.3.
#[test]
fn parts_of_an_update() {
    let octets = message(
        2,
        &body(
            &[24, 10, 1, 2],
            &[origin(), path(), next_hop()],
            &[8, 10, 12, 172, 31],
        ),
    );
    let it = taken(&AS4, &octets);
    assert_eq!(told(it.withdrawn()), ["10.1.2.0/24"]);
    assert_eq!((it.withdrawn().len(), it.nlri().count()), (1, 2));
    // Bits past the length have no meaning.
    assert_eq!(told(it.nlri()), ["10.0.0.0/8", "172.16.0.0/12"]);
    assert_eq!(
        told(it.prefixes()),
        ["10.1.2.0/24", "10.0.0.0/8", "172.16.0.0/12"]
    );
    assert_eq!(it.reached().count() + it.unreached().count(), 0);
    assert_eq!(it.reached_by(), None);
    let kinds: Vec<_> = it
        .attributes()
        .map(|it| (it.at, it.flags, it.kind))
        .collect();
    assert_eq!(kinds, [(27, 0x40, 1), (31, 0x40, 2), (44, 0x40, 3)]);
    let hop = it.attribute(3).unwrap();
    assert_eq!(hop.value, [192, 0, 2, 1]);
    assert!(hop.is_transitive() && !hop.is_optional() && !hop.is_partial());
    assert_eq!(it.attribute(4), None);
    assert_eq!(it.notes().count(), 0);
}

/// RFC 4271, section 4.3, and RFC 6793, section 3.
#[test]
fn paths() {
    let mixed = attribute(
        0x40,
        2,
        &[2, 2, 0, 0, 0xfd, 0xe8, 0, 3, 0x0d, 0x40, 1, 1, 0, 0, 0, 7],
    );
    let octets = message(2, &body(&[], &[origin(), mixed, next_hop()], &[8, 10]));
    let path: Vec<_> = taken(&AS4, &octets)
        .as_path()
        .unwrap()
        .map(|it| (it.kind, it.numbers().collect::<Vec<_>>()))
        .collect();
    let wanted = [
        (SegmentKind::Sequence, vec![65000, 200000]),
        (SegmentKind::Set, vec![7]),
    ];
    assert_eq!(path, wanted);

    let two = attribute(0x40, 2, &[2, 2, 0xfd, 0xe8, 0x5b, 0xa0]);
    let four = attribute(0xc0, 17, &[2, 2, 0, 0, 0xfd, 0xe8, 0, 3, 0x0d, 0x40]);
    let octets = message(2, &body(&[], &[origin(), two, next_hop(), four], &[8, 10]));
    let it = taken(&PLAIN, &octets);
    let numbers = |path: ristulva::Segments<'_>| -> Vec<u32> {
        path.flat_map(|segment| segment.numbers()).collect()
    };
    assert_eq!(numbers(it.as_path().unwrap()), [65000, 23456]);
    assert_eq!(numbers(it.as4_path().unwrap()), [65000, 200000]);
    assert_eq!(it.as_path().unwrap().next().unwrap().numbers().len(), 2);
}

/// RFC 1997 and RFC 8092.
#[test]
fn communities() {
    let plain = attribute(0xc0, 8, &[0, 1, 0, 2, 0xff, 0xff, 0xff, 1]);
    let large = attribute(0xc0, 32, &[0, 0, 0xfd, 0xe8, 0, 0, 0, 1, 0, 0, 0, 2]);
    let octets = message(
        2,
        &body(&[], &[origin(), path(), next_hop(), plain, large], &[8, 10]),
    );
    let it = taken(&AS4, &octets);
    assert_eq!(
        it.communities().collect::<Vec<_>>(),
        [0x0001_0002, 0xffff_ff01]
    );
    assert_eq!(it.large_communities().collect::<Vec<_>>(), [[65000, 1, 2]]);
}

/// RFC 8092, section 3: a repeated large community is skipped.
#[test]
fn large_communities_once() {
    let (one, two) = (
        [0, 0, 0xfd, 0xe8, 0, 0, 0, 1, 0, 0, 0, 2],
        [0, 0, 0xfd, 0xe8, 0, 0, 0, 1, 0, 0, 0, 3],
    );
    let large = attribute(0xc0, 32, &[one, two, one, two, two].concat());
    let octets = message(
        2,
        &body(&[], &[origin(), path(), next_hop(), large], &[8, 10]),
    );
    let it = taken(&AS4, &octets);
    let mut left = it.large_communities();
    assert_eq!(
        left.by_ref().collect::<Vec<_>>(),
        [[65000, 1, 2], [65000, 1, 3]]
    );
    assert_eq!(left.next(), None);
}

/// RFC 4760, sections 3 and 4, and RFC 2545, section 3.
#[test]
fn families() {
    let global = [&[0x20, 1, 0xd, 0xb8][..], &[0; 11], &[1]].concat();
    let link = [&[0xfe, 0x80][..], &[0; 13], &[2]].concat();
    let reach = [
        &[0, 2, 1, 32][..],
        &global,
        &link,
        &[0, 32, 0x20, 1, 0xd, 0xb8],
    ]
    .concat();
    let reach = attribute(0x80, 14, &reach);
    let unreach = attribute(0x80, 15, &[0, 2, 1, 16, 0x20, 2]);
    let octets = message(2, &body(&[], &[origin(), path(), reach, unreach], &[]));

    let it = taken(&Context { ip6: true, ..AS4 }, &octets);
    assert_eq!(told(it.reached()), ["2001:db8::/32"]);
    assert_eq!(told(it.unreached()), ["2002::/16"]);
    let hop = NextHop {
        address: "2001:db8::1".parse().unwrap(),
        link_local: Some("fe80::2".parse().unwrap()),
    };
    assert_eq!(it.reached_by(), Some(hop));

    // Of a family that isn't in use both are discarded (RFC 4760, section 7).
    let it = taken(&AS4, &octets);
    assert_eq!(it.reached().count() + it.unreached().count(), 0);
    assert_eq!(it.reached_by(), None);
    let whys: Vec<_> = it.notes().map(|note| (note.kind, note.why)).collect();
    assert_eq!(whys, [(14, Why::Family), (15, Why::Family)]);
}

/// RFC 4760, section 3, and RFC 4271, section 5.1.3: IPv4 routes have a next hop of four octets.
#[test]
fn family_of_ip4() {
    let reach = attribute(0x80, 14, &[0, 1, 1, 4, 192, 0, 2, 2, 0, 16, 10, 1]);
    let octets = message(2, &body(&[], &[origin(), path(), reach], &[]));
    let it = taken(&Context { ip4: true, ..AS4 }, &octets);
    assert_eq!(told(it.reached()), ["10.1.0.0/16"]);
    let hop = NextHop {
        address: "192.0.2.2".parse().unwrap(),
        link_local: None,
    };
    assert_eq!(it.reached_by(), Some(hop));

    let it = taken(&Context { ip6: true, ..AS4 }, &octets);
    assert_eq!(it.reached().count(), 0);
    assert_eq!(it.notes().next().unwrap().why, Why::Family);
}

/// RFC 7606, sections 3 and 7.1: an ORIGIN without a meaning withdraws the routes.
#[test]
fn withdrawal() {
    let octets = message(
        2,
        &body(
            &[8, 11],
            &[attribute(0x40, 1, &[3]), path(), next_hop()],
            &[8, 10],
        ),
    );
    let Outcome::Withdraw(it) = judge(&AS4, &octets).unwrap().into_outcome() else {
        panic!("it is accepted")
    };
    assert_eq!(told(it.prefixes()), ["11.0.0.0/8", "10.0.0.0/8"]);
    let note = Note {
        at: Some(25),
        kind: 1,
        why: Why::Value,
    };
    assert_eq!(it.notes().collect::<Vec<_>>(), [note]);
}

/// RFC 7606, section 3, item d: a mandatory attribute that is missing.
#[test]
fn missing() {
    let octets = message(2, &body(&[], &[origin(), path()], &[8, 10]));
    let Outcome::Withdraw(it) = judge(&AS4, &octets).unwrap().into_outcome() else {
        panic!("it is accepted")
    };
    let note = Note {
        at: None,
        kind: 3,
        why: Why::Missing,
    };
    assert_eq!(it.notes().collect::<Vec<_>>(), [note]);
}

/// RFC 7606, section 3, item g: all but the first are discarded.
#[test]
fn repeated() {
    let attributes = [
        origin(),
        path(),
        next_hop(),
        attribute(0x80, 4, &[0, 0, 0, 7]),
        attribute(0x80, 4, &[0, 0, 0, 8]),
    ];
    let octets = message(2, &body(&[], &attributes, &[8, 10]));
    let it = taken(&AS4, &octets);
    assert_eq!(it.attribute(4).unwrap().value, [0, 0, 0, 7]);
    assert_eq!(it.attributes().filter(|it| it.kind == 4).count(), 2);
    assert_eq!(it.notes().next().unwrap().why.to_string(), "Repeated");
}

/// More notes than there is room for at first: each but the first is one, by its offset.
#[test]
fn many_notes() {
    let mut attributes = vec![origin(), path(), next_hop()];
    attributes.extend(vec![attribute(0x40, 6, &[]); 1000]);
    let octets = message(2, &body(&[], &attributes, &[8, 10]));
    let it = taken(&AS4, &octets);
    let first = octets.len() - 2 - 999 * 3;
    assert_eq!(it.notes().len(), 999);
    for (number, note) in it.notes().enumerate() {
        let wanted = Note {
            at: Some(first + 3 * number),
            kind: 6,
            why: Why::Repeated,
        };
        assert_eq!(note, wanted);
    }
}

/// The lines of a message with as many prefixes as fit.
#[test]
fn long_lines() {
    let nlri = [8, 10].repeat(2000);
    let octets = message(2, &body(&[], &[origin(), path(), next_hop()], &nlri));
    let lines = judge(&AS4, &octets).unwrap().lines().unwrap();
    let nlri = lines.lines().filter(|line| *line == "  nlri 10.0.0.0/8");
    assert_eq!(nlri.count(), 2000);
    assert_eq!(lines.lines().count(), 2004);
}

/// ORIGIN after AS_PATH, its length in two octets, is written before it in one.
#[test]
fn one_written_form() {
    let long = vec![0x50, 1, 0, 1, 0];
    let mixed = body(&[], &[path(), long, next_hop()], &[8, 10]);
    assert_eq!(encode(&AS4, &mixed), Ok(message(2, &simple())));
    assert_eq!(encode(&AS4, &simple()), Ok(message(2, &simple())));
}

/// 23456 replaces 200000, and AS4_PATH has it (RFC 6793, section 4.2.2).
#[test]
fn narrowed() {
    let two = attribute(0x40, 2, &[2, 2, 0xfd, 0xe8, 0x5b, 0xa0]);
    let four = attribute(0xc0, 17, &[2, 2, 0, 0, 0xfd, 0xe8, 0, 3, 0x0d, 0x40]);
    let wanted = body(&[], &[origin(), two, next_hop(), four], &[8, 10]);
    assert_eq!(narrow(&AS4, &simple()), Ok(message(2, &wanted)));
    assert_eq!(narrow(&PLAIN, &simple()), Ok(message(2, &wanted)));
    assert_eq!(reconcile(&AS4, &wanted), Ok(message(2, &simple())));
}

#[test]
fn refused() {
    let long_prefix = body(&[], &[origin(), path(), next_hop()], &[33, 10]);
    assert_eq!(encode(&AS4, &long_prefix), Err(Error::Refused));
    let noted = body(&[], &[origin(), origin(), path(), next_hop()], &[8, 10]);
    assert_eq!(encode(&AS4, &noted), Err(Error::Refused));
    assert_eq!(
        encode(&AS4, &vec![0; ristulva::BODY + 1]),
        Err(Error::TooLong)
    );
    let told: Box<dyn std::error::Error> = Error::Refused.into();
    assert_eq!(told.to_string(), "the UPDATE isn't accepted whole");
}

/// The declarations of src/raw.rs are those of each header with this version's first two numbers.
#[test]
fn version() {
    let numbers = ristulva::version();
    let series = format!("{}.{}.", numbers / 1_000_000, numbers / 1000 % 1000);
    assert!(env!("CARGO_PKG_VERSION").starts_with(&series));
}

const ALL: Context = Context {
    ip4: true,
    ip6: true,
    ..AS4
};

/// The cleaned form of octets, the first of their stream.
fn cleaned(octets: &[u8], types: &[u8]) -> Cleaned {
    let message = judge(&ALL, octets).expect("a message");
    message.clean(true, types).expect("memory")
}

/// What is passed on of octets is wanted, with these numbers of attributes that are discarded and
/// left out, and of capabilities left out; wanted is passed on unchanged.
fn becomes(octets: &[u8], types: &[u8], wanted: &[u8], counts: [usize; 3]) {
    let handed_on = |[discarded, left_out, capabilities]: [usize; 3]| {
        Cleaned::HandedOn(HandedOn {
            message: wanted.to_vec(),
            discarded,
            left_out,
            capabilities,
        })
    };
    assert_eq!(cleaned(octets, types), handed_on(counts));
    assert_eq!(cleaned(wanted, types), handed_on([0; 3]));
}

/// RFC 7606, section 7: an ORIGIN without a meaning, and an AGGREGATOR of which an octet is missing.
#[test]
fn cleaned_updates() {
    let simple = message(2, &simple());
    let bad = attribute(0x40, 1, &[9]);
    let withdrawn = message(2, &body(&[8, 11], &[bad, path(), next_hop()], &[8, 10]));
    let gone = message(2, &body(&[8, 11, 8, 10], &[], &[]));
    becomes(&withdrawn, &[], &gone, [0; 3]);
    let short = attribute(0xc0, 7, &[0, 1, 13, 0x40, 192, 0, 2]);
    let discarded = message(
        2,
        &body(&[], &[origin(), path(), next_hop(), short], &[8, 10]),
    );
    becomes(&discarded, &[], &simple, [1, 0, 0]);
    assert_eq!(taken(&ALL, &discarded).notes().count(), 1);
    becomes(&message(4, &[]), &[], &message(4, &[]), [0; 3]);
    becomes(&message(3, &[6, 2]), &[], &message(3, &[6, 2]), [0; 3]);
}

/// Of two types that aren't recognised each is left out by its type, and ORIGIN isn't. What remains
/// of attributes alone isn't an End-of-RIB.
#[test]
fn cleaned_of_types() {
    let (some, other) = (attribute(0xc0, 20, &[1]), attribute(0xc0, 30, &[2]));
    let both = [origin(), path(), next_hop(), some.clone(), other.clone()];
    let octets = message(2, &body(&[], &both, &[8, 10]));
    becomes(&octets, &[], &octets, [0; 3]);
    let one = message(
        2,
        &body(&[], &[origin(), path(), next_hop(), other], &[8, 10]),
    );
    becomes(&octets, &[20, 1], &one, [0, 1, 0]);
    becomes(
        &octets,
        &[30, 255, 20, 30],
        &message(2, &simple()),
        [0, 2, 0],
    );
    let alone = message(2, &body(&[], &[some], &[]));
    becomes(&alone, &[20], &message(4, &[]), [0, 1, 0]);
    let end_of_rib = message(2, &body(&[], &[], &[]));
    becomes(&end_of_rib, &[20], &end_of_rib, [0; 3]);
}

/// IPv4 unicast, route refresh, AS 131073 and IPv4 unicast: two are passed on, in one parameter.
#[test]
fn cleaned_opens() {
    let open = |capabilities: &[&[u8]]| {
        let row = capabilities.concat();
        let fixed = [4, 0x5b, 0xa0, 0, 90, 192, 0, 2, 2];
        let sizes = [row.len() as u8 + 2, 2, row.len() as u8];
        message(1, &[&fixed[..], &sizes, &row].concat())
    };
    let ip4: &[u8] = &[1, 4, 0, 1, 0, 1];
    let as4: &[u8] = &[65, 4, 0, 2, 0, 1];
    let octets = open(&[ip4, &[2, 0], as4, ip4]);
    becomes(&octets, &[], &open(&[ip4, as4]), [0, 0, 2]);
    let late = judge(&ALL, &octets).expect("a message").clean(false, &[]);
    assert_eq!(late, Ok(Cleaned::Ends(End::LateOpen)));
    let multicast = open(&[&[1, 4, 0, 1, 0, 2]]);
    assert_eq!(cleaned(&multicast, &[]), Cleaned::Ends(End::NoFamily));
}

#[test]
fn cleaned_streams_end() {
    let end = |code, subcode| Cleaned::Ends(End::Reset { code, subcode });
    assert_eq!(cleaned(&message(2, &[0, 3, 8, 10, 0, 0]), &[]), end(3, 1));
    let mut short = message(4, &[]);
    short[17] = 18;
    assert_eq!(cleaned(&short, &[]), end(1, 2));
    let (code, subcode) = (1, 2);
    assert_eq!(End::Reset { code, subcode }.to_string(), "reset 1/2");
}

/// RFC 5952: only hexadecimal groups, also where an IPv6 address holds an IPv4 one.
#[test]
fn addresses_as_they_are_shown() {
    for (address, wanted) in [
        ("192.0.2.1", "192.0.2.1"),
        ("2001:db8::1", "2001:db8::1"),
        ("::ffff:192.0.2.1", "::ffff:c000:201"),
        ("::ffff:0.0.1.2", "::ffff:0:102"),
        ("::c000:201", "::c000:201"),
    ] {
        let address = address.parse().expect("an address");
        assert_eq!(Shown(address).to_string(), wanted);
    }
}
