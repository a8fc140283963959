//! The captures of examples/: their lines, and what iterators give of them, are what the texts
//! beside them say.

use ristulva::{messages, Capability, Context, Message, Outcome, Update};
use std::collections::BTreeMap;
use std::fs;
use std::path::{Path, PathBuf};

/// A capture, with its session and the text that is kept beside it.
struct Capture {
    name: String,
    context: Context,
    octets: Vec<u8>,
    text: String,
}

fn octets_of(digits: &str) -> Vec<u8> {
    let digits: String = digits.split_whitespace().collect();
    (0..digits.len())
        .step_by(2)
        .map(|at| u8::from_str_radix(&digits[at..at + 2], 16).expect("two digits"))
        .collect()
}

fn capture(path: &Path) -> Capture {
    let flags = fs::read_to_string(path.with_extension("flags")).unwrap_or_default();
    let has = |flag| flags.split_whitespace().any(|word| word == flag);
    Capture {
        name: path.display().to_string(),
        context: Context {
            internal: has("--internal"),
            as4: has("--as4"),
            ip4: has("--ip4"),
            ip6: has("--ip6"),
        },
        octets: octets_of(&fs::read_to_string(path).expect("a capture")),
        text: fs::read_to_string(path.with_extension("txt")).expect("its text"),
    }
}

fn captures() -> Vec<Capture> {
    let folder = Path::new(env!("CARGO_MANIFEST_DIR")).join("../../examples");
    let mut paths: Vec<PathBuf> = fs::read_dir(folder)
        .expect("the captures")
        .map(|entry| entry.expect("a capture").path())
        .filter(|path| path.extension().is_some_and(|form| form == "hex"))
        .collect();
    paths.sort();
    assert!(!paths.is_empty());
    paths.iter().map(|path| capture(path)).collect()
}

/// The UPDATE that a message is.
fn update<'a>(message: &Message<'a>) -> Option<Update<'a>> {
    match message.outcome() {
        Outcome::Update(update) | Outcome::Withdraw(update) => Some(*update),
        _ => None,
    }
}

/// The words of the lines that begin with `  NAME `, by their names; those of one name in their
/// order.
fn words(lines: &str) -> BTreeMap<&str, Vec<&str>> {
    let mut words: BTreeMap<_, Vec<_>> = BTreeMap::new();
    for line in lines.lines().filter_map(|line| line.strip_prefix("  ")) {
        let (name, rest) = line.split_once(' ').unwrap_or((line, ""));
        words.entry(name).or_default().push(rest);
    }
    words
}

/// A prefix as `show` prints it: of IPv6 with all its digits.
fn shown(prefix: ristulva::Prefix) -> String {
    match prefix.address {
        std::net::IpAddr::V4(_) => prefix.to_string(),
        std::net::IpAddr::V6(address) => {
            let groups = address.segments().map(|group| format!("{group:04x}"));
            format!("{}/{}", groups.join(":"), prefix.len)
        }
    }
}

#[test]
fn lines() {
    for it in captures() {
        let mut stream = messages(&it.context, &it.octets);
        let mut text: String = stream.by_ref().map(|message| message.to_string()).collect();
        let last = messages(&it.context, &it.octets).last();
        text += &match last.as_ref().map(|it| (it.outcome(), it.octets())) {
            Some((Outcome::Reset { .. }, [])) => "end head\n".to_string(),
            Some((Outcome::Reset { .. }, _)) => "end reset\n".to_string(),
            _ => format!("end wait {}\n", stream.rest().len()),
        };
        assert_eq!(text, it.text, "{}", it.name);
    }
}

#[test]
fn prefixes() {
    for it in captures() {
        for message in messages(&it.context, &it.octets) {
            let Outcome::Update(update) = message.outcome() else {
                continue;
            };
            let lines = message.to_string();
            let words = words(&lines);
            for (name, found) in [
                ("withdrawn", update.withdrawn()),
                ("mp_nlri", update.reached()),
                ("mp_withdrawn", update.unreached()),
                ("nlri", update.nlri()),
            ] {
                let found: Vec<_> = found.map(shown).collect();
                let wanted = words.get(name).cloned().unwrap_or_default();
                assert_eq!(found, wanted, "{} {name} of {lines}", it.name);
            }
        }
    }
}

/// A capability as `show` prints it.
fn shown_capability(it: Capability<'_>) -> String {
    let digits: String = it
        .value
        .iter()
        .map(|octet| format!("{octet:02x}"))
        .collect();
    match (it.code, it.value) {
        (1, [high, low, _, safi]) => format!("multi {} {safi}", u16::from_be_bytes([*high, *low])),
        (65, [a, b, c, d]) => format!("as4 {}", u32::from_be_bytes([*a, *b, *c, *d])),
        (code, []) => format!("{code} -"),
        (code, _) => format!("{code} {digits}"),
    }
}

#[test]
fn opens() {
    for it in captures() {
        for message in messages(&it.context, &it.octets) {
            let Outcome::Open(open) = message.outcome() else {
                continue;
            };
            let lines = message.to_string();
            let words = words(&lines);
            assert_eq!(words["as"], [open.as_field().to_string()], "{}", it.name);
            assert_eq!(words["hold"], [open.hold_time().to_string()]);
            assert_eq!(words["id"], [open.identifier().to_string()]);
            let wanted = words.get("cap").cloned().unwrap_or_default();
            let found: Vec<_> = open.capabilities().map(shown_capability).collect();
            assert_eq!(found, wanted, "{}", it.name);
            assert_eq!(open.offers_ip6(), wanted.contains(&"multi 2 1"));
        }
    }
}

#[test]
fn withdrawn_routes() {
    for it in captures() {
        for message in messages(&it.context, &it.octets) {
            let Outcome::Withdraw(update) = message.outcome() else {
                continue;
            };
            let lines = message.to_string();
            let mut found: Vec<_> = update.prefixes().map(shown).collect();
            let mut wanted = words(&lines).remove("route").unwrap_or_default();
            found.sort();
            wanted.sort();
            assert_eq!(found, wanted, "{}", it.name);
        }
    }
}

#[test]
fn notes() {
    for it in captures() {
        for message in messages(&it.context, &it.octets) {
            let Some(update) = update(&message) else {
                continue;
            };
            // The lines have offsets in the body.
            let found: Vec<_> = update
                .notes()
                .map(|note| {
                    format!(
                        "{} {} {}",
                        note.at.map_or(0, |at| at - 19),
                        note.kind,
                        note.why
                    )
                })
                .collect();
            let lines = message.to_string();
            let wanted = words(&lines).remove("note").unwrap_or_default();
            assert_eq!(found, wanted, "{} {lines}", it.name);
        }
    }
}

#[test]
fn offsets() {
    for it in captures() {
        let mut offset = 0;
        for message in messages(&it.context, &it.octets) {
            assert_eq!(message.offset(), offset as u64, "{}", it.name);
            let octets = message.octets();
            assert_eq!(
                octets,
                &it.octets[offset..offset + octets.len()],
                "{}",
                it.name
            );
            offset += octets.len();
        }
    }
}

/// Walks all that an UPDATE has. Answers the number of steps.
fn walk(update: &Update<'_>) -> usize {
    let paths = update.as_path().into_iter().chain(update.as4_path());
    let numbers = paths.flatten().flat_map(|segment| segment.numbers());
    update.attributes().count()
        + update.prefixes().count()
        + numbers.count()
        + update.communities().count()
        + update.large_communities().count()
        + update.reached_by().iter().count()
        + update.notes().count()
}

/// Whatever one octet is, what it contains is judged, printed and walked, and no more of it than
/// there is.
#[test]
fn changed_octets() {
    for mut it in captures() {
        for at in 0..it.octets.len() {
            let kept = it.octets[at];
            for octet in [0, kept ^ 1, 0xff] {
                it.octets[at] = octet;
                for message in messages(&it.context, &it.octets) {
                    assert!(message.to_string().ends_with('\n'), "{}", it.name);
                    let steps = match message.outcome() {
                        Outcome::Open(open) => open.capabilities().count(),
                        Outcome::Update(update) | Outcome::Withdraw(update) => walk(update),
                        _ => 0,
                    };
                    assert!(steps <= 2 * message.octets().len(), "{} {at}", it.name);
                }
            }
            it.octets[at] = kept;
        }
    }
}
