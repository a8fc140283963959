//! A stream in pieces is what it is whole, however it is cut.

use ristulva::{messages, Context, Decoder, Message, Outcome};
use std::fs;
use std::path::Path;

const CONTEXT: Context = Context {
    internal: false,
    as4: true,
    ip4: true,
    ip6: true,
};

fn message(kind: u8, body: &[u8]) -> Vec<u8> {
    let len = (19 + body.len() as u16).to_be_bytes();
    [&[0xff; 16][..], &len, &[kind], body].concat()
}

/// The body of an UPDATE: 10.0.0.0/8 by the path 70000 65001, next hop 192.0.2.1.
const ANNOUNCEMENT: [u8; 30] = [
    0, 0, 0, 24, 64, 1, 1, 0, 64, 2, 10, 2, 2, 0, 1, 17, 112, 0, 0, 253, 233, 64, 3, 4, 192, 0, 2,
    1, 8, 10,
];

/// The same by the path 65001 and without a next hop.
const WITHOUT_HOP: [u8; 19] = [
    0, 0, 0, 13, 64, 1, 1, 0, 64, 2, 6, 2, 1, 0, 0, 253, 233, 8, 10,
];

const OPEN: [u8; 10] = [4, 0xfd, 0xe9, 0, 90, 192, 0, 2, 1, 0];

fn stream() -> Vec<u8> {
    [
        message(1, &OPEN),
        message(4, &[]),
        message(2, &ANNOUNCEMENT),
        message(2, &WITHOUT_HOP),
        message(3, &[6, 2, 98, 121, 101]),
        message(4, &[]),
    ]
    .concat()
}

/// A Length that isn't that of a KEEPALIVE, a type that there isn't, a Marker (RFC 4271, section
/// 6.1), and Withdrawn Routes that are longer than the message (section 6.3).
fn faults() -> [Vec<u8>; 4] {
    let mut marker = message(4, &[]);
    marker[0] = 0xfe;
    let withdrawn = message(2, &[0, 9, 0, 0]);
    [message(4, &[0]), message(9, &[]), marker, withdrawn]
}

/// All that a message has.
type Told = (u64, Vec<u8>, String, String);

fn told(message: &Message<'_>) -> Told {
    let outcome = format!("{:?}", plain(message.outcome()));
    let octets = message.octets().to_vec();
    (message.offset(), octets, message.to_string(), outcome)
}

/// What an outcome has beside its routes, which the lines have.
fn plain(outcome: &Outcome<'_>) -> (u8, u8, Vec<u8>, usize) {
    match outcome {
        Outcome::Open(open) => (1, 0, vec![], open.capabilities().count()),
        Outcome::Update(update) => (2, 0, vec![], update.prefixes().count()),
        Outcome::Withdraw(update) => (3, 0, vec![], update.prefixes().count()),
        Outcome::Keepalive => (4, 0, vec![], 0),
        Outcome::Notification {
            code,
            subcode,
            data,
        } => (*code, *subcode, data.to_vec(), 5),
        Outcome::Reset {
            code,
            subcode,
            data,
        } => (*code, *subcode, data.clone(), 6),
    }
}

fn in_pieces(octets: &[u8], cuts: &[usize]) -> Vec<Told> {
    let mut decoder = Decoder::new(&CONTEXT).expect("memory");
    let (mut found, mut at) = (Vec::new(), 0);
    for end in cuts.iter().copied().chain([octets.len()]) {
        let mut piece = &octets[at..end];
        while let Some(message) = decoder.pull(&mut piece) {
            found.push(told(&message));
        }
        at = end;
    }
    found
}

fn whole(octets: &[u8]) -> Vec<Told> {
    messages(&CONTEXT, octets)
        .map(|message| told(&message))
        .collect()
}

#[test]
fn each_cut() {
    for fault in faults().into_iter().chain([vec![]]) {
        let octets = [stream(), fault, message(4, &[])].concat();
        let wanted = whole(&octets);
        assert_eq!(in_pieces(&octets, &[]), wanted);
        let all: Vec<usize> = (1..octets.len()).collect();
        assert_eq!(in_pieces(&octets, &all), wanted);
        for cut in all {
            assert_eq!(in_pieces(&octets, &[cut]), wanted, "cut at {cut}");
        }
    }
}

#[test]
fn captures() {
    let folder = Path::new(env!("CARGO_MANIFEST_DIR")).join("../../examples");
    let mut count = 0;
    for entry in fs::read_dir(folder).expect("the captures") {
        let path = entry.expect("a capture").path();
        if path.extension().map_or(true, |form| form != "hex") {
            continue;
        }
        let text = fs::read_to_string(&path).expect("a capture");
        let digits: String = text.split_whitespace().collect();
        let octets: Vec<u8> = (0..digits.len())
            .step_by(2)
            .map(|at| u8::from_str_radix(&digits[at..at + 2], 16).expect("two digits"))
            .collect();
        let wanted = whole(&octets);
        for size in [1, 13, 100] {
            let cuts: Vec<usize> = (size..octets.len()).step_by(size).collect();
            assert_eq!(in_pieces(&octets, &cuts), wanted, "{}", path.display());
        }
        count += 1;
    }
    assert!(count > 0);
}

#[test]
fn what_is_taken() {
    let mut decoder = Decoder::new(&CONTEXT).expect("memory");
    let octets = [message(2, &ANNOUNCEMENT), message(4, &[])].concat();
    let mut piece = &octets[..30];
    assert!(decoder.pull(&mut piece).is_none());
    assert_eq!((piece.len(), decoder.held()), (0, 30));
    let mut piece = &octets[30..];
    let taken = decoder.pull(&mut piece).expect("a message");
    assert_eq!((taken.octets(), piece.len()), (&octets[..49], 19));
    assert!(decoder.pull(&mut piece).is_some() && decoder.pull(&mut piece).is_none());
    assert_eq!((piece.len(), decoder.held()), (0, 0));
    assert!(decoder.pull(&mut &[][..]).is_none());
}

/// Nothing is read there (RFC 4271, section 6).
#[test]
fn behind_a_reset() {
    for fault in faults() {
        let mut decoder = Decoder::new(&CONTEXT).expect("memory");
        let octets = [fault.clone(), message(4, &[])].concat();
        let mut piece = &octets[..];
        let first = decoder.pull(&mut piece).expect("a reset");
        assert!(matches!(first.outcome(), Outcome::Reset { .. }));
        let left = piece.len();
        assert_eq!(
            left,
            octets.len() - fault.len().min(if fault[18] == 2 { 23 } else { 19 })
        );
        assert!(decoder.pull(&mut piece).is_none());
        assert_eq!((piece.len(), decoder.held()), (left, 0));
    }
}

#[test]
fn goes_between_threads() {
    let mut decoder = Decoder::new(&CONTEXT).expect("memory");
    let octets = message(4, &[]);
    assert!(decoder.pull(&mut &octets[..7]).is_none());
    let decoder = std::thread::spawn(move || {
        assert!(decoder.pull(&mut &octets[7..]).is_some());
        decoder
    })
    .join()
    .expect("no panic");
    assert_eq!(decoder.held(), 0);
    assert!(format!("{decoder:?}").starts_with("Decoder { context: Context {"));
}
