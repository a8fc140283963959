//! Rows of whole streams, by values written by hand.

use ristulva::{messages, read_rows, write_rows, CommunityRow, Context, Error};
use ristulva::{LargeCommunityRow, NumberRow, RouteRow, Row, Stop, ROWS};

const FOUR: Context = Context {
    internal: false,
    as4: true,
    ip4: true,
    ip6: true,
};
const ORIGIN: &str = "40010100";
const HOP: &str = "400304c0000201";
// 65001 200000.
const PATH: &str = "40020a02020000fde900030d40";
const COMMUNITIES: &str = "c00808fde80001ffffff01";
const LARGE: &str =
    "c02024 0000fde80000000100000002 0000fde80000000300000004 0000fde80000000100000002";
const REACH: &str = "800e1a 00020110 20010db8000000000000000000000001 00 2020010db8";

fn octets(hex: &str) -> Vec<u8> {
    let digits: Vec<char> = hex.chars().filter(|c| *c != ' ').collect();
    let pair = |two: &[char]| u8::from_str_radix(&two.iter().collect::<String>(), 16);
    digits.chunks(2).map(|two| pair(two).unwrap()).collect()
}

fn message(kind: u8, body: &[u8]) -> Vec<u8> {
    let len = 19 + body.len() as u16;
    [&[0xff; 16][..], &len.to_be_bytes(), &[kind], body].concat()
}

/// An UPDATE that withdraws 10.1.0.0/16, with these attributes, and 10.0.0.0/8 as its NLRI.
fn update(attributes: &[&str]) -> Vec<u8> {
    let field = octets(&attributes.concat());
    let size = (field.len() as u16).to_be_bytes();
    message(
        2,
        &[&[0, 3, 16, 10, 1][..], &size, &field, &[8, 10]].concat(),
    )
}

/// A KEEPALIVE, an UPDATE, and one whose ORIGIN has no meaning: it is treated as a withdrawal
/// (RFC 7606, section 7.1).
fn stream() -> Vec<u8> {
    let first = update(&[ORIGIN, PATH, HOP, COMMUNITIES, LARGE, REACH]);
    [message(4, &[]), first, update(&["40010109", PATH, HOP])].concat()
}

#[test]
fn routes() {
    let octets = stream();
    let (rows, read) = read_rows::<RouteRow>(&FOUR, &octets);
    let found: Vec<String> = rows.iter().map(|row| row.route().to_string()).collect();
    let wanted = [
        "withdraw 10.1.0.0/16",
        "announce 2001:db8::/32",
        "announce 10.0.0.0/8",
        "withdraw 10.1.0.0/16",
        "withdraw 10.0.0.0/8",
    ];
    assert_eq!(found, wanted);
    assert_eq!((read.rows, read.octets, read.stop), (5, octets.len(), None));
    for (number, row) in rows.iter().enumerate() {
        let announced = row.route().announced;
        assert_eq!(row.origin_as(), announced.then_some(200000));
        assert_eq!(row.is_treated_as_withdrawal(), number >= 3);
        assert_eq!(row.message() == 19, number < 3);
        let message = &octets[row.message() as usize..];
        let value = |hex: &str| {
            if announced {
                self::octets(&hex[6..])
            } else {
                Vec::new()
            }
        };
        assert_eq!(row.as_path(message), value(PATH));
        assert_eq!(row.communities(message), value(COMMUNITIES));
        assert_eq!(row.large_communities(message), value(LARGE));
        assert_eq!(row.as4_path(message), [0; 0]);
    }
}

#[test]
fn values() {
    let sets = update(&[ORIGIN, "400210 02010000fde9 01020000fdea0000fdeb", HOP]);
    let octets = [stream(), sets].concat();
    let (numbers, _) = read_rows::<NumberRow>(&FOUR, &octets);
    let numbers: Vec<_> = numbers
        .iter()
        .map(|it| (it.number(), it.segment(), it.is_in_set()))
        .collect();
    let wanted = [
        (65001, 0, false),
        (200000, 0, false),
        (65001, 0, false),
        (65002, 1, true),
        (65003, 1, true),
    ];
    assert_eq!(numbers, wanted);
    let (communities, _) = read_rows::<CommunityRow>(&FOUR, &octets);
    let communities: Vec<_> = communities
        .iter()
        .map(|it| (it.message(), it.value()))
        .collect();
    assert_eq!(communities, [(19, 0xfde80001), (19, 0xffffff01)]);
    let (large, _) = read_rows::<LargeCommunityRow>(&FOUR, &octets);
    let large: Vec<_> = large
        .iter()
        .map(|it| (it.message(), it.numbers()))
        .collect();
    assert_eq!(large, [(19, [65000, 1, 2]), (19, [65000, 3, 4])]);
}

/// What was read before a message that is cut off, or that resets the session, is given.
#[test]
fn ends() {
    let header = [&[0xff; 15][..], &[0xfe, 0, 19, 4]].concat();
    let cut = update(&[ORIGIN]);
    for (rest, stop) in [
        (&cut[..cut.len() - 1], Stop::Incomplete),
        (&header, Stop::Reset),
        (&message(2, &[0, 9, 0, 0]), Stop::Reset),
    ] {
        let (rows, read) = read_rows::<RouteRow>(&FOUR, &[&stream(), rest].concat());
        assert_eq!((rows.len(), read.octets), (5, stream().len()));
        assert_eq!(read.stop, Some(stop));
    }
    let (rows, read) = read_rows::<RouteRow>(&FOUR, &[]);
    assert_eq!((rows.len(), read.octets, read.stop), (0, 0, None));
    let mut few = vec![RouteRow::default(); ROWS - 1];
    assert_eq!(write_rows(&FOUR, &stream(), &mut few), Err(Error::Room));
}

/// Whatever room there is, the rows are those that each message gives.
#[test]
fn rooms() {
    let octets = stream().repeat(3000);
    let wanted: Vec<String> = messages(&FOUR, &octets)
        .flat_map(|it| {
            it.routes()
                .map(move |route| format!("{} {route}", it.offset()))
        })
        .collect();
    for room in [ROWS, ROWS + 1, 3 * ROWS] {
        let (mut rows, mut found, mut at) = (vec![RouteRow::default(); room], Vec::new(), 0);
        while at < octets.len() {
            let written = write_rows(&FOUR, &octets[at..], &mut rows).unwrap();
            assert!(written.octets > 0 && written.stop.is_none());
            found.extend(
                rows[..written.rows]
                    .iter()
                    .map(|row| format!("{} {}", at as u64 + row.message(), row.route())),
            );
            at += written.octets;
        }
        assert_eq!(found, wanted);
    }
    let (rows, _) = read_rows::<RouteRow>(&FOUR, &octets);
    let found = rows
        .iter()
        .map(|row| format!("{} {}", row.message(), row.route()));
    assert!(found.eq(wanted));
}
