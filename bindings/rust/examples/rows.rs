//! Measures rows of a whole stream against cursors over each message: both read the routes and
//! their origin ASes.
//!
//!     checks/bench/stream 120000 7 > stream.bin
//!     cargo run --release --example rows stream.bin

use ristulva::{messages, write_rows, Context, RouteRow, ROWS};
use std::time::Instant;
use std::{env, fs, io};

/// The number of routes, and the sum of their origin AS numbers.
type Seen = (u64, u64);

fn by_rows(context: &Context, octets: &[u8], rows: &mut [RouteRow]) -> Seen {
    let (mut seen, mut at) = ((0, 0), 0);
    while at < octets.len() {
        let written = write_rows(context, &octets[at..], rows).expect("there is room");
        for row in &rows[..written.rows] {
            seen = (seen.0 + 1, seen.1 + u64::from(row.origin_as().unwrap_or(0)));
        }
        at += written.octets;
        if written.stop.is_some() {
            break;
        }
    }
    seen
}

fn by_cursors(context: &Context, octets: &[u8]) -> Seen {
    let mut seen = (0, 0);
    for message in messages(context, octets) {
        let origin_as = message.facts().and_then(|facts| facts.origin_as);
        for route in message.routes() {
            let number = origin_as.filter(|_| route.announced).unwrap_or(0);
            seen = (seen.0 + 1, seen.1 + u64::from(number));
        }
    }
    seen
}

/// The best of some rounds, in routes a second.
fn best(name: &str, mut read: impl FnMut() -> Seen) -> Seen {
    let (mut seen, mut least) = ((0, 0), f64::MAX);
    for _ in 0..5 {
        let began = Instant::now();
        seen = read();
        least = least.min(began.elapsed().as_secs_f64());
    }
    println!("{name}: {:.0} routes a second", seen.0 as f64 / least);
    seen
}

fn main() -> io::Result<()> {
    let context = Context {
        as4: true,
        ip4: true,
        ip6: true,
        ..Context::default()
    };
    let name = env::args().nth(1).unwrap_or("/dev/stdin".into());
    let octets = fs::read(name)?;
    let mut rows = vec![RouteRow::default(); 64 * ROWS];
    let found = best("by rows", || by_rows(&context, &octets, &mut rows));
    assert_eq!(found, best("by cursors", || by_cursors(&context, &octets)));
    Ok(())
}
