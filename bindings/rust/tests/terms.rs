//! Terms and ROUTE-REFRESH: values by hand (RFC 2918; RFC 7313).

use ristulva::{
    encode_refresh, front, front_in, judge, judge_in, judge_paths, messages_in, paths, terms_of,
    without_paths, AgreedTerms, Context, Decoder, DecoderIn, Error, Front, Kind, KindIn, MessageIn,
    MessagePaths, Outcome, Refresh, RefreshOutcome, Refreshes, RouteRefresh, Subtype, Terms,
    UpdateOutcome, UpdatePaths, REFRESH_MESSAGE,
};

const CONTEXT: Context = Context {
    internal: false,
    as4: true,
    ip4: true,
    ip6: true,
};

/// In the same context.
fn terms(refresh: Refreshes) -> Terms {
    Terms {
        context: CONTEXT,
        refresh,
        ..Terms::default()
    }
}

fn message(kind: u8, body: &[u8]) -> Vec<u8> {
    let len = (19 + body.len() as u16).to_be_bytes();
    [&[0xff; 16][..], &len, &[kind], body].concat()
}

const IP4: &[u8] = &[1, 4, 0, 1, 0, 1];
const REFRESH: &[u8] = &[2, 0];
const ENHANCED: &[u8] = &[70, 0];
const LONG: &[u8] = &[6, 0];
const HOP6: &[u8] = &[5, 6, 0, 1, 0, 1, 0, 2];
const PATHS4: &[u8] = &[69, 4, 0, 1, 1, 3];
const PATHS6: &[u8] = &[69, 4, 0, 2, 1, 3];

/// An OPEN of AS 65001 that offers IPv4 unicast, and more.
fn open(capabilities: &[&[u8]]) -> Vec<u8> {
    let row = [IP4, &capabilities.concat()].concat();
    let sizes = [row.len() as u8 + 2, 2, row.len() as u8];
    let fixed = [4, 0xfd, 0xe9, 0, 90, 192, 0, 2, 1];
    message(1, &[&fixed[..], &sizes, &row].concat())
}

/// What is agreed on beyond IPv4 unicast and the same AS.
fn agreed(reader: &[&[u8]], sender: &[&[u8]]) -> Terms {
    let AgreedTerms { terms, hold_time } =
        terms_of(&open(reader), &open(sender)).expect("two OPENs");
    let context = Context {
        internal: true,
        ip4: true,
        ..Context::default()
    };
    assert_eq!((terms.context, hold_time), (context, 90));
    Terms {
        context: Context::default(),
        ..terms
    }
}

#[test]
fn what_is_agreed_on() {
    let none = Terms::default();
    let of = |refresh| Terms { refresh, ..none };
    assert_eq!(agreed(&[], &[REFRESH, ENHANCED]), none);
    assert_eq!(agreed(&[ENHANCED], &[REFRESH, ENHANCED]), none);
    assert_eq!(agreed(&[REFRESH], &[ENHANCED]), of(Refreshes::Plain));
    let enhanced = agreed(&[REFRESH, ENHANCED], &[ENHANCED]);
    assert_eq!(enhanced, of(Refreshes::Enhanced));
    let long_messages = true;
    assert_eq!(
        agreed(&[LONG], &[]),
        Terms {
            long_messages,
            ..none
        }
    );
    let long_back = true;
    assert_eq!(agreed(&[], &[LONG]), Terms { long_back, ..none });
    let hop6 = true;
    assert_eq!(agreed(&[HOP6], &[]), Terms { hop6, ..none });
    assert_eq!(agreed(&[], &[HOP6]), none);
    let paths4 = true;
    assert_eq!(
        agreed(&[PATHS4], &[PATHS4, PATHS6]),
        Terms { paths4, ..none }
    );
    let paths6 = true;
    assert_eq!(
        agreed(&[PATHS4, PATHS6], &[PATHS6]),
        Terms { paths6, ..none }
    );
}

#[test]
fn what_is_not_an_open() {
    let (whole, keepalive) = (open(&[]), message(4, &[]));
    for (reader, sender) in [
        (&[][..], &whole[..]),
        (&whole, &whole[..30]),
        (&keepalive, &whole),
        (&whole, &keepalive),
    ] {
        assert_eq!(terms_of(reader, sender), None);
    }
}

/// No message is judged where routes have path identifiers, whatever the octets are.
#[test]
fn path_identifiers() {
    let (paths4, paths6) = (true, true);
    let plain = terms(Refreshes::Plain);
    for terms in [Terms { paths4, ..plain }, Terms { paths6, ..plain }] {
        for octets in [message(4, &[]), message(5, &[0, 1, 0, 1]), vec![]] {
            assert_eq!(front_in(&terms, &octets), Err(Error::Paths));
            assert_eq!(judge_in(&terms, &octets), Err(Error::Paths));
            assert_eq!(messages_in(&terms, &octets).err(), Some(Error::Paths));
        }
        assert_eq!(DecoderIn::new(&terms).err(), Some(Error::Paths));
    }
    let told = Error::Paths.to_string();
    assert_eq!(
        told,
        "routes have path identifiers, which this call doesn't read"
    );
}

/// In the same context, by terms by which routes of these families have path identifiers.
fn identified(paths4: bool, paths6: bool) -> Terms {
    Terms {
        paths4,
        paths6,
        ..terms(Refreshes::None)
    }
}

/// Path 9 of 2001:db8::/32 and path 1 of 10.0.0.0/8, by 192.0.2.1 and 2001:db8::1.
const WITH_PATHS: &[u8] = &[
    0, 0, 0, 53, 64, 1, 1, 0, 64, 2, 6, 2, 1, 0, 0, 0xfd, 0xe8, 64, 3, 4, 192, 0, 2, 1, 128, 14,
    30, 0, 2, 1, 16, 0x20, 1, 0xd, 0xb8, 0, 0, 0, 0, 0, 0, 0, 0, 0, 0, 0, 1, 0, 0, 0, 0, 9, 32,
    0x20, 1, 0xd, 0xb8, 0, 0, 0, 1, 8, 10,
];

/// A message without path identifiers, and these beside its routes (RFC 7911, section 3).
#[test]
fn paths_beside_routes() {
    let octets = message(2, WITH_PATHS);
    let both = identified(true, true);
    let plain = without_paths(&both, &octets).unwrap().expect("a message");
    assert_eq!(plain.len() + 8, octets.len());
    let judged = judge(&CONTEXT, &plain).expect("a message");
    assert_eq!(judged.routes().count(), 2);
    assert_eq!(paths(&both, &octets), Ok(Some(vec![9, 1])));
    assert_eq!(paths(&terms(Refreshes::None), &plain), Ok(Some(vec![0, 0])));
    assert_eq!(paths(&both, &octets[..30]), Ok(None));
    assert_eq!(without_paths(&both, &octets[..30]), Ok(None));
    let keepalive = message(4, &[]);
    assert_eq!(
        without_paths(&both, &keepalive),
        Ok(Some(keepalive.clone()))
    );
    assert_eq!(paths(&both, &keepalive), Ok(Some(vec![])));
    // A type that isn't offered, and an identifier without a prefix.
    let request = message(5, &[0, 1, 0, 1]);
    assert_eq!(without_paths(&both, &request), Err(Error::Refused));
    assert_eq!(paths(&both, &request), Err(Error::Refused));
    let cut = message(2, &[0, 4, 0, 0, 0, 1, 0, 0]);
    assert_eq!(paths(&both, &cut), Err(Error::Refused));
}

/// The UPDATE that octets are, by terms with path identifiers: octets after it are ignored, and it is
/// incomplete with one octet less.
fn update<'a>(terms: &Terms, octets: &'a [u8]) -> UpdatePaths<'a> {
    let Some(MessagePaths::Update(update)) = judge_paths(terms, octets) else {
        panic!("{octets:?} is no UPDATE");
    };
    let more = [octets, &[255]].concat();
    let again = judge_paths(terms, &more);
    assert_eq!(again, Some(MessagePaths::Update(update.clone())));
    assert_eq!(judge_paths(terms, &octets[..octets.len() - 1]), None);
    assert_eq!(update.octets(), octets);
    update
}

/// The session ends by an UPDATE with this body; of its octets these are the data.
fn is_answered(terms: &Terms, body: &[u8], subcode: u8, data: std::ops::Range<usize>) {
    let octets = message(2, body);
    let (code, data) = (3, octets[data].to_vec());
    let update = update(terms, &octets);
    let wanted = UpdateOutcome::Reset {
        code,
        subcode,
        data,
    };
    assert_eq!(update.outcome(), &wanted);
    assert!(MessagePaths::Update(update).is_reset());
}

/// ORIGIN and AS_PATH, NEXT_HOP, and the value of MP_REACH_NLRI up to its routes.
const PAIR: &[u8] = &[64, 1, 1, 0, 64, 2, 6, 2, 1, 0, 0, 0xfd, 0xe8];
const HOP: &[u8] = &[64, 3, 4, 192, 0, 2, 1];
const REACH: &[u8] = &[
    0, 2, 1, 16, 0x20, 1, 0xd, 0xb8, 0, 0, 0, 0, 0, 0, 0, 0, 0, 0, 0, 1, 0,
];

/// Outcome and parts of an UPDATE with path identifiers (RFC 7911, section 3) are those of its octets
/// as they were received; each family has them for itself (section 4).
#[test]
fn judged_with_paths() {
    let octets = message(2, WITH_PATHS);
    let accepted = update(&identified(true, true), &octets);
    assert_eq!(accepted.outcome(), &UpdateOutcome::Accepted);
    assert_eq!(accepted.withdrawn(), &[]);
    assert_eq!(accepted.attributes(), &WITH_PATHS[4..57]);
    assert_eq!(accepted.nlri(), &[0, 0, 0, 1, 8, 10]);
    // An ORIGIN without a meaning (RFC 7606, section 7.1), and routes that are withdrawn.
    let mut bad = octets.clone();
    bad[26] = 3;
    let withdrawn = update(&identified(true, true), &bad);
    assert_eq!(withdrawn.outcome(), &UpdateOutcome::Withdraw);
    assert_eq!(withdrawn.attributes(), &bad[23..76]);
    let octets = message(2, &[0, 6, 0, 0, 0, 7, 8, 10, 0, 0]);
    let gone = update(&identified(true, false), &octets);
    assert_eq!(gone.outcome(), &UpdateOutcome::Accepted);
    assert_eq!(gone.withdrawn(), &[0, 0, 0, 7, 8, 10]);
    assert_eq!((gone.attributes(), gone.nlri()), (&[][..], &[][..]));
    let octets = message(2, &[&[0, 0, 0, 20], PAIR, HOP, &[8, 10]].concat());
    let plain = update(&identified(false, true), &octets);
    assert_eq!(plain.outcome(), &UpdateOutcome::Accepted);
    assert_eq!(plain.nlri(), &[8, 10]);
    assert!(!MessagePaths::Update(plain).is_reset());
}

/// An attribute that is data of the NOTIFICATION is the one that was received (RFC 7606, section
/// 5.3).
#[test]
fn data_with_paths() {
    let (ip4, ip6) = (identified(true, false), identified(false, true));
    // In MP_REACH_NLRI length 129 after an identifier, and in MP_UNREACH_NLRI an identifier without
    // a prefix.
    let reach = [REACH, &[0, 0, 0, 1, 129], &[0; 17]].concat();
    let body = [&[0, 0, 0, 59, 128, 14, 43], &reach[..], PAIR].concat();
    is_answered(&ip6, &body, 9, 23..69);
    let unreach = [128, 15, 7, 0, 2, 1, 0, 0, 0, 1];
    is_answered(&ip6, &[&[0, 0, 0, 10], &unreach[..]].concat(), 9, 23..33);
    let withdrawn = [0, 6, 0, 0, 0, 1, 8, 10, 0, 10];
    let body = [&withdrawn, &unreach[..]].concat();
    is_answered(&identified(true, true), &body, 9, 29..39);
    // In the longest message 813 times ::/0, and one octet of an identifier.
    let routes = [[0, 0, 0, 1, 0]; 813].concat();
    let unreach = [&[144, 15, 15, 229, 0, 2, 1][..], &routes, &[0]].concat();
    let body = [&[0, 0, 15, 233], &unreach[..]].concat();
    is_answered(&ip6, &body, 9, 23..4096);
    // Without data: in NLRI an identifier without a prefix, three octets of one, and none.
    for nlri in [&[0, 0, 0, 1][..], &[0, 0, 0], &[8, 10, 8, 11]] {
        let body = [&[0, 0, 0, 20], PAIR, HOP, nlri].concat();
        is_answered(&ip4, &body, 10, 0..0);
    }
    // The same octets where no identifiers are agreed on, and lengths without room for each other,
    // which leave no parts.
    let none = identified(false, false);
    let body = [&[0, 0, 0, 20], PAIR, HOP, &[0, 0, 0, 1, 8, 10]].concat();
    is_answered(&none, &body, 10, 0..0);
    is_answered(&ip4, &[0, 8, 0, 0, 0, 7, 0, 0], 1, 0..0);
    let octets = message(2, &[0, 8, 0, 0, 0, 7, 0, 0]);
    let update = update(&ip4, &octets);
    let parts = [update.withdrawn(), update.attributes(), update.nlri()];
    assert_eq!(parts, [&[][..]; 3]);
}

/// Each other message is as `judge_in` has it, and so is a header with a fault; by terms without path
/// identifiers an UPDATE has the outcome that it has there.
#[test]
fn others_with_paths() {
    let mut bad_marker = message(5, &[0, 1, 0, 1]);
    bad_marker[0] = 0;
    for octets in [
        open(&[PATHS4]),
        message(1, &[3, 0xfd, 0xe9, 0, 90, 192, 0, 2, 1, 0]),
        message(3, &[6, 2, 7]),
        message(4, &[]),
        message(5, &[0, 1, 0, 1]),
        message(5, &[0, 1, 1, 1, 0]),
        message(5, &[0, 1]),
        message(6, &[]),
        bad_marker,
    ] {
        for refresh in [Refreshes::None, Refreshes::Plain, Refreshes::Enhanced] {
            let plain = terms(refresh);
            let wanted = judge_in(&plain, &octets).expect("no paths");
            for (paths4, paths6) in [(true, true), (false, true), (false, false)] {
                let with = Terms {
                    paths4,
                    paths6,
                    ..plain
                };
                let found = judge_paths(&with, &octets).expect("a message");
                assert_eq!(found.octets(), wanted.as_ref().unwrap().octets());
                assert_eq!(found.is_reset(), wanted.as_ref().unwrap().is_reset());
                assert_eq!(Some(found), wanted.clone().map(MessagePaths::Other));
                assert_eq!(judge_paths(&with, &octets[..18]), None);
            }
        }
    }
    let body = [&[0, 0, 0, 20], PAIR, HOP, &[8, 10]].concat();
    for body in [&body[..], &[0, 0, 0, 0], &[0, 2, 8, 10, 0, 0]] {
        let octets = message(2, body);
        let update = update(&terms(Refreshes::None), &octets);
        let plain = judge(&CONTEXT, &octets).expect("a message");
        assert!(matches!(plain.outcome(), Outcome::Update(_)));
        assert_eq!(update.outcome(), &UpdateOutcome::Accepted);
    }
    assert_eq!(judge_paths(&identified(true, true), &[]), None);
}

/// A stream with path identifiers, message after message.
#[test]
fn streams_with_paths() {
    let terms = Terms {
        refresh: Refreshes::Plain,
        ..identified(true, true)
    };
    let (update, request) = (message(2, WITH_PATHS), message(5, &[0, 1, 0, 1]));
    let cut = message(2, &[0, 4, 0, 0, 0, 1, 0, 0]);
    let octets = [&message(4, &[])[..], &update, &request, &update, &cut, &[7]].concat();
    let (mut rest, mut lens) = (&octets[..], Vec::new());
    while let Some(message) = judge_paths(&terms, rest) {
        lens.push((message.octets().len(), message.is_reset()));
        rest = &rest[message.octets().len()..];
    }
    let wanted = [
        (19, false),
        (82, false),
        (23, false),
        (82, false),
        (27, true),
    ];
    assert_eq!((&lens[..], rest), (&wanted[..], &[7][..]));
}

#[test]
fn fronts() {
    let octets = message(5, &[0, 1, 0, 1]);
    let found = Front::Found {
        kind: KindIn::Refresh,
        octets: &octets[..],
    };
    assert_eq!(front_in(&terms(Refreshes::Plain), &octets), Ok(found));
    let more = Front::More { wanted: 23 };
    assert_eq!(
        front_in(&terms(Refreshes::Enhanced), &octets[..22]),
        Ok(more)
    );
    let fault = |data| Front::Fault {
        code: 1,
        subcode: 3,
        data,
    };
    assert_eq!(
        front_in(&terms(Refreshes::None), &octets),
        Ok(fault(&[5][..]))
    );
    assert_eq!(
        front(&octets),
        Front::Fault {
            code: 1,
            subcode: 3,
            data: &[5]
        }
    );
    let octets = message(4, &[]);
    let found = Front::Found {
        kind: KindIn::Base(Kind::Keepalive),
        octets: &octets[..],
    };
    assert_eq!(front_in(&terms(Refreshes::Plain), &octets), Ok(found));
}

/// The ROUTE-REFRESH that octets are.
fn judged(refreshes: Refreshes, octets: &[u8]) -> RouteRefresh<'_> {
    match judge_in(&terms(refreshes), octets) {
        Ok(Some(MessageIn::Refresh(message))) => message,
        other => panic!("{other:?}"),
    }
}

/// It is accepted, and says this.
fn says(refreshes: Refreshes, octets: &[u8], afi: u16, safi: u8, subtype: Subtype, line: &str) {
    let message = judged(refreshes, octets);
    let rest = &octets[23..];
    let refresh = Refresh {
        afi,
        safi,
        subtype,
        rest,
    };
    assert_eq!(message.outcome(), &RefreshOutcome::Accepted(refresh));
    assert_eq!(message.octets(), octets);
    let printed = format!("0 {} ROUTE-REFRESH {line}\n", octets.len());
    assert_eq!(message.to_string(), printed);
    assert_eq!(message.lines(), Ok(printed));
}

#[test]
fn what_a_refresh_says() {
    let (plain, enhanced) = (Refreshes::Plain, Refreshes::Enhanced);
    let octets = message(5, &[0xff, 0xfe, 0, 128]);
    says(
        plain,
        &octets,
        65534,
        128,
        Subtype::Request,
        "request 65534 128",
    );
    let octets = message(5, &[0, 1, 1, 1]);
    says(plain, &octets, 1, 1, Subtype::Request, "request 1 1");
    says(enhanced, &octets, 1, 1, Subtype::Begin, "begin 1 1");
    let octets = message(5, &[0, 2, 2, 1]);
    says(enhanced, &octets, 2, 1, Subtype::End, "end 2 1");
    let octets = message(5, &[0, 1, 255, 1, 7, 7]);
    says(
        enhanced,
        &octets,
        1,
        1,
        Subtype::Ignored(255),
        "ignored 255 1 1",
    );
    says(plain, &octets, 1, 1, Subtype::Request, "request 1 1");
    let octets = message(5, &[&[0, 1, 0, 1][..], &[0; 4073]].concat());
    says(enhanced, &octets, 1, 1, Subtype::Request, "request 1 1");
}

/// It is answered by this NOTIFICATION.
fn resets(refreshes: Refreshes, octets: &[u8], code: u8, subcode: u8, data: &[u8], line: &str) {
    let message = judged(refreshes, octets);
    let data = data.to_vec();
    let reset = RefreshOutcome::Reset {
        code,
        subcode,
        data,
    };
    assert_eq!(message.outcome(), &reset);
    assert_eq!(message.octets(), octets);
    assert_eq!(message.to_string(), format!("0 {} {line}\n", octets.len()));
}

/// A body of fewer than four octets (RFC 4271, section 6.1), and a mark of another length (RFC
/// 7313, section 5), whose message is the data, as far as there is room for it.
#[test]
fn what_ends_the_session() {
    let (plain, enhanced) = (Refreshes::Plain, Refreshes::Enhanced);
    let short = message(5, &[0, 1, 1]);
    resets(plain, &short, 1, 2, &[0, 22], "HEADER reset 1/2 0016");
    let line = format!(
        "ROUTE-REFRESH reset 7/1 {}0016050001{:02x}",
        "ff".repeat(16),
        1
    );
    resets(enhanced, &short, 7, 1, &short, &line);
    resets(
        enhanced,
        &message(5, &[]),
        1,
        2,
        &[0, 19],
        "HEADER reset 1/2 0013",
    );
    let long = message(5, &[&[0, 1, 2, 1][..], &[0; 4073]].concat());
    let hex: String = long[..4075].iter().map(|it| format!("{it:02x}")).collect();
    let line = format!("ROUTE-REFRESH reset 7/1 {hex}");
    resets(enhanced, &long, 7, 1, &long[..4075], &line);
}

/// All other messages are those of the context, and so is one of type 5 where it isn't offered.
#[test]
fn other_messages() {
    let open = message(1, &[4, 0xfd, 0xe9, 0, 90, 192, 0, 2, 1, 0]);
    let mut bad_marker = message(5, &[0, 1, 0, 1]);
    bad_marker[0] = 0;
    for octets in [open, message(3, &[6, 2, 7]), message(4, &[]), bad_marker] {
        let wanted = judge(&CONTEXT, &octets).map(MessageIn::Base);
        assert_eq!(judge_in(&terms(Refreshes::Enhanced), &octets), Ok(wanted));
    }
    let octets = message(5, &[0, 1, 0, 1]);
    let wanted = judge(&CONTEXT, &octets).map(MessageIn::Base);
    assert_eq!(judge_in(&terms(Refreshes::None), &octets), Ok(wanted));
    assert_eq!(judge_in(&terms(Refreshes::Plain), &octets[..22]), Ok(None));
}

#[test]
fn streams() {
    let keepalive = message(4, &[]);
    let [begin, end] = [Subtype::Begin, Subtype::End].map(|it| encode_refresh(1, 1, it));
    let octets = [&keepalive[..], &begin, &keepalive, &end, &keepalive[..9]].concat();
    let mut found = messages_in(&terms(Refreshes::Enhanced), &octets).expect("no paths");
    let mut lines = String::new();
    let mut offsets = Vec::new();
    for message in found.by_ref() {
        offsets.push((message.offset(), message.octets().len(), message.is_reset()));
        lines += &message.lines().expect("memory");
        assert!(lines.ends_with(&message.to_string()));
    }
    let wanted = [
        (0, 19, false),
        (19, 23, false),
        (42, 19, false),
        (61, 23, false),
    ];
    assert_eq!(offsets, wanted);
    assert_eq!(found.rest(), &keepalive[..9]);
    assert!(found.next().is_none());
    assert!(lines.contains("19 23 ROUTE-REFRESH begin 1 1\n"));
    assert!(lines.ends_with("61 23 ROUTE-REFRESH end 1 1\n"));
    // Nothing after a reset is read.
    let mut found = messages_in(&terms(Refreshes::None), &octets).expect("no paths");
    assert!(found.by_ref().take(1).all(|it| !it.is_reset()));
    let Some(MessageIn::Base(message)) = found.next() else {
        panic!("a header with a fault");
    };
    let data = vec![5];
    let (code, subcode) = (1, 3);
    let reset = Outcome::Reset {
        code,
        subcode,
        data,
    };
    assert_eq!((message.outcome(), message.offset()), (&reset, 19));
    assert!(found.next().is_none());
}

#[test]
fn written() {
    for number in [0, 1, 2, 3, 255] {
        let subtype = Subtype::of(number);
        assert_eq!(subtype.number(), number);
        let octets = encode_refresh(0x1234, 0x56, subtype);
        assert_eq!(octets[..], message(5, &[0x12, 0x34, number, 0x56]));
        assert_eq!(octets.len(), REFRESH_MESSAGE);
        let accepted = judged(Refreshes::Enhanced, &octets);
        let RefreshOutcome::Accepted(it) = accepted.outcome() else {
            panic!("{accepted:?}");
        };
        assert_eq!((it.afi, it.safi, it.subtype), (0x1234, 0x56, subtype));
    }
}

/// All that a message has.
fn told(message: &MessageIn<'_>) -> (u64, Vec<u8>, String, String) {
    let octets = message.octets().to_vec();
    // Without the octets that an UPDATE or an OPEN borrows, which lie elsewhere.
    let outcome = match message {
        MessageIn::Refresh(it) => format!("{:?}", it.outcome()),
        MessageIn::Base(it) => format!("{:?}", std::mem::discriminant(it.outcome())),
    };
    (message.offset(), octets, message.to_string(), outcome)
}

fn in_pieces(terms: &Terms, octets: &[u8], cuts: &[usize]) -> Vec<(u64, Vec<u8>, String, String)> {
    let mut decoder = DecoderIn::new(terms).expect("memory");
    let (mut found, mut at) = (Vec::new(), 0);
    for end in cuts.iter().copied().chain([octets.len()]) {
        let mut piece = &octets[at..end];
        while let Some(message) = decoder.pull(&mut piece) {
            found.push(told(&message));
        }
        at = end;
    }
    found
}

/// The body of an UPDATE: 10.0.0.0/8 by the path 70000 65001, next hop 192.0.2.1.
const ANNOUNCEMENT: [u8; 30] = [
    0, 0, 0, 24, 64, 1, 1, 0, 64, 2, 10, 2, 2, 0, 1, 17, 112, 0, 0, 253, 233, 64, 3, 4, 192, 0, 2,
    1, 8, 10,
];

/// An OPEN, a KEEPALIVE, two requests, an UPDATE, two marks and a KEEPALIVE. Of the marks the second
/// is longer than a mark may be: where marks are accepted it is the last message.
fn stream() -> Vec<u8> {
    [
        open(&[REFRESH]),
        message(4, &[]),
        message(5, &[0, 1, 0, 1]),
        message(5, &[0, 2, 0, 1, 7]),
        message(2, &ANNOUNCEMENT),
        message(5, &[0, 1, 1, 1]),
        message(5, &[0, 1, 2, 1, 0]),
        message(4, &[]),
    ]
    .concat()
}

/// A stream in pieces is what it is whole, however it is cut.
#[test]
fn each_cut() {
    let octets = stream();
    let all: Vec<usize> = (1..octets.len()).collect();
    for (refresh, count) in [
        (Refreshes::None, 3),
        (Refreshes::Plain, 8),
        (Refreshes::Enhanced, 7),
    ] {
        let terms = terms(refresh);
        let whole = messages_in(&terms, &octets).expect("no paths");
        let wanted: Vec<_> = whole.map(|message| told(&message)).collect();
        assert_eq!(wanted.len(), count);
        assert_eq!(in_pieces(&terms, &octets, &[]), wanted);
        assert_eq!(in_pieces(&terms, &octets, &all), wanted);
        for &cut in &all {
            assert_eq!(
                in_pieces(&terms, &octets, &[cut]),
                wanted,
                "{refresh:?} cut at {cut}"
            );
        }
    }
}

/// Without a ROUTE-REFRESH it gives what a decoder gives in the context, whatever is accepted.
#[test]
fn in_a_context() {
    let octets = [
        open(&[]),
        message(4, &[]),
        message(2, &ANNOUNCEMENT),
        message(2, &[0, 9, 0, 0]),
    ]
    .concat();
    let (mut piece, mut wanted) = (&octets[..], Vec::new());
    let mut decoder = Decoder::new(&CONTEXT).expect("memory");
    while let Some(message) = decoder.pull(&mut piece) {
        wanted.push(told(&MessageIn::Base(message)));
    }
    assert_eq!(wanted.len(), 4);
    for refresh in [Refreshes::None, Refreshes::Plain, Refreshes::Enhanced] {
        assert_eq!(in_pieces(&terms(refresh), &octets, &[50]), wanted);
    }
}

/// Nothing is read after a ROUTE-REFRESH that is refused, nor after one that isn't offered.
#[test]
fn behind_a_reset() {
    let (short, mark) = (message(5, &[0, 1, 1]), message(5, &[0, 1, 1, 1, 0]));
    let request = message(5, &[0, 1, 0, 1]);
    for (refresh, bad, taken) in [
        (Refreshes::Enhanced, &mark, 24),
        (Refreshes::Enhanced, &short, 22),
        (Refreshes::Plain, &short, 22),
        (Refreshes::None, &request, 19),
    ] {
        let octets = [&bad[..], &message(4, &[]), &request].concat();
        for cut in 0..taken {
            let mut decoder = DecoderIn::new(&terms(refresh)).expect("memory");
            let mut piece = &octets[..cut];
            assert!(decoder.pull(&mut piece).is_none());
            assert_eq!((piece.len(), decoder.held()), (0, cut));
            piece = &octets[cut..];
            let first = decoder.pull(&mut piece).expect("a reset");
            assert!(first.is_reset());
            if refresh != Refreshes::None {
                let wanted = judge_in(&terms(refresh), bad).expect("no paths");
                assert_eq!(Some(first), wanted);
            }
            let left = piece.len();
            assert_eq!(left, octets.len() - taken);
            assert!(decoder.pull(&mut piece).is_none());
            assert!(decoder.pull(&mut &request[..]).is_none());
            assert_eq!((piece.len(), decoder.held()), (left, 0));
        }
    }
}

#[test]
fn goes_between_threads() {
    let mut decoder = DecoderIn::new(&terms(Refreshes::Plain)).expect("memory");
    let octets = message(5, &[0, 1, 0, 1]);
    assert!(decoder.pull(&mut &octets[..7]).is_none());
    let decoder = std::thread::spawn(move || {
        assert!(decoder.pull(&mut &octets[7..]).is_some());
        decoder
    })
    .join()
    .expect("no panic");
    assert_eq!(decoder.held(), 0);
    assert!(format!("{decoder:?}").starts_with("DecoderIn { terms: Terms { context: Context {"));
}
