//! What everybody asks of UPDATEs and OPENs, by values written by hand.

use ristulva::numbers::{attribute_name, attribute_type, capability_code, capability_name};
use ristulva::numbers::{cease_error, error_code, error_name, subcode_name};
use ristulva::{agree, directions, judge, Agreed, Context, Origin, Outcome};

fn octets(hex: &str) -> Vec<u8> {
    let digits: Vec<char> = hex.chars().filter(|c| *c != ' ').collect();
    let pair = |two: &[char]| u8::from_str_radix(&two.iter().collect::<String>(), 16);
    digits.chunks(2).map(|two| pair(two).unwrap()).collect()
}

fn message(kind: u8, body: &[u8]) -> Vec<u8> {
    let len = 19 + body.len() as u16;
    [&[0xff; 16][..], &len.to_be_bytes(), &[kind], body].concat()
}

/// An UPDATE that withdraws 10.1.0.0/16, with these attributes, and 10.0.0.0/8 as its NLRI.
fn update(attributes: &str) -> Vec<u8> {
    let field = octets(attributes);
    let size = (field.len() as u16).to_be_bytes();
    let body = [&[0, 3, 16, 10, 1][..], &size, &field, &[8, 10]].concat();
    message(2, &body)
}

const ORIGIN: &str = "40010102";
// 65001 23456, and 200000 of AS4_PATH.
const PATHS: &str = "40020602 02fde95ba0 c01106020100030d40";
const HOPS: &str = "400304c0000201 800e2a 00020120 20010db8000000000000000000000001 \
                    fe800000000000000000000000000001 00 2020010db8";
const GONE: &str = "800f0a 000201 3020010db80001";
const OTHERS: &str = "80040400000007 40050400000064 400600 c007065ba0c0000209 \
                      c0120800030d40c0000209 c00808fde80001fde80002";
const MORE: &str = "c0200c0000fde80000000100000002 c0c802abcd c0c900";
// AS 65001, 180 s, both families and AS numbers of four octets.
const OURS: &str = "04fde900b4c0000201 16 0214 010400010001 010400020001 41040000fde9 0200";
// AS 200000, 90 s, IPv4 unicast and AS numbers of four octets.
const THEIRS: &str = "045ba0005ac0000202 0e 020c 010400010001 410400030d40";

const TWO: Context = Context {
    internal: true,
    as4: false,
    ip4: true,
    ip6: true,
};

#[test]
fn facts() {
    let it = update(&[ORIGIN, PATHS, HOPS, GONE, OTHERS, MORE].concat());
    let it = judge(&TWO, &it).unwrap();
    let facts = it.facts().expect("it is accepted");
    assert_eq!(facts.origin, Some(Origin::Incomplete));
    assert_eq!((facts.med, facts.local_pref), (Some(7), Some(100)));
    assert_eq!((facts.atomic_aggregate, facts.unrecognised), (true, 2));
    assert_eq!(facts.next_hop.unwrap().to_string(), "192.0.2.1");
    assert_eq!(facts.mp_next_hop.unwrap().to_string(), "2001:db8::1");
    assert_eq!(facts.link_local.unwrap().to_string(), "fe80::1");
    assert_eq!(facts.aggregator, Some((200000, [192, 0, 2, 9].into())));
    assert_eq!(facts.origin_as, Some(200000));
    assert_eq!(facts.as_path, Some(&octets("0202fde95ba0")[..]));
    assert_eq!(facts.as4_path, Some(&octets("020100030d40")[..]));
    assert_eq!(facts.communities, Some(&octets("fde80001fde80002")[..]));
    let large = octets("0000fde80000000100000002");
    assert_eq!(facts.large_communities, Some(&large[..]));
}

/// What is missing, or discarded, isn't given; nor is anything of what isn't accepted.
#[test]
fn no_facts() {
    let rest = "400304c0000201 40050400000064 c0110602010000fde9";
    let set = update(&[ORIGIN, "40020c01010000fde901010000fdea", rest].concat());
    let external = Context {
        as4: true,
        ..Context::default()
    };
    let facts = judge(&external, &set).unwrap().facts().unwrap();
    assert_eq!((facts.local_pref, facts.as4_path), (None, None));
    assert_eq!((facts.origin_as, facts.mp_next_hop), (None, None));
    assert_eq!((facts.med, facts.aggregator), (None, None));
    for octets in [
        update("40010109 400200 400304c0000201"),
        message(4, &[]),
        vec![0; 19],
    ] {
        assert_eq!(judge(&external, &octets).unwrap().facts(), None);
    }
}

#[test]
fn routes() {
    let lines = |context: &Context, octets: &[u8]| -> Vec<String> {
        let routes = judge(context, octets).unwrap().routes();
        routes.map(|route| route.to_string()).collect()
    };
    let taken = update(&[ORIGIN, PATHS, HOPS, GONE].concat());
    let wanted = [
        "withdraw 10.1.0.0/16",
        "withdraw 2001:db8:1::/48",
        "announce 2001:db8::/32",
        "announce 10.0.0.0/8",
    ];
    assert_eq!(lines(&TWO, &taken), wanted);
    let treated = update(&["40010109", PATHS, HOPS, GONE].concat());
    let wanted = wanted.map(|line| line.replace("announce", "withdraw"));
    assert_eq!(lines(&TWO, &treated), wanted);
    let ended = update(&[ORIGIN, PATHS, HOPS, HOPS].concat());
    assert_eq!(lines(&TWO, &ended).len(), 0);
    let without = Context { ip6: false, ..TWO };
    assert_eq!(lines(&without, &taken).len(), 2);
    assert!(judge(&without, &taken).unwrap().routes().loses_ip6());
    assert!(!judge(&TWO, &taken).unwrap().routes().loses_ip6());
}

#[test]
fn agreement() {
    let (ours, theirs) = (message(1, &octets(OURS)), message(1, &octets(THEIRS)));
    let context = Context {
        as4: true,
        ip4: true,
        ..Context::default()
    };
    let hold_time = 90;
    assert_eq!(agree(&ours, &theirs), Some(Agreed { context, hold_time }));
    assert_eq!(agree(&theirs, &ours), Some(Agreed { context, hold_time }));
    for other in [&message(4, &[])[..], &theirs[..20], &[]] {
        assert_eq!((agree(&ours, other), agree(other, &ours)), (None, None));
    }
    let four = "40020a02020000fde900030d40";
    let sent = [ours, update(&[ORIGIN, four, HOPS].concat())].concat();
    let (one, other) = directions(&sent, &theirs).expect("two OPENs");
    let last = one.last().expect("an UPDATE");
    assert_eq!(last.facts().unwrap().origin_as, Some(200000));
    assert!(last.routes().loses_ip6());
    let kinds: Vec<bool> = other
        .map(|it| matches!(it.outcome(), Outcome::Open(_)))
        .collect();
    assert_eq!(kinds, [true]);
    assert!(directions(&sent[39..], &theirs).is_none());
}

#[test]
fn names() {
    assert_eq!(attribute_name(attribute_type::COMMUNITIES), "COMMUNITY");
    let as4 = "Support for 4-octet AS number capability";
    assert_eq!(capability_name(capability_code::AS4), as4);
    assert_eq!(error_name(error_code::CEASE), "Cease");
    let shutdown = cease_error::ADMINISTRATIVE_SHUTDOWN;
    let name = subcode_name(error_code::CEASE, shutdown);
    assert_eq!(name, "Administrative Shutdown");
    assert_eq!((attribute_name(11), subcode_name(6, 0)), Default::default());
}
