//! Prints of each UPDATE of the stream on the standard input its routes, the AS that they came from,
//! their next hops and communities.

use ristulva::{messages, Context, Outcome, Shown};
use std::io::{self, Read};

fn main() -> io::Result<()> {
    let mut octets = Vec::new();
    io::stdin().read_to_end(&mut octets)?;
    let context = Context {
        as4: true,
        ip4: true,
        ip6: true,
        internal: false,
    };
    for message in messages(&context, &octets) {
        message.routes().for_each(|route| println!("{route}"));
        let (Some(facts), Outcome::Update(update)) = (message.facts(), message.outcome()) else {
            continue;
        };
        (facts.origin_as.iter()).for_each(|number| println!("origin {number}"));
        let hops = facts.next_hops().map(Shown);
        hops.for_each(|hop| println!("next hop {hop}"));
        for number in update.communities() {
            println!("community {}:{}", number >> 16, number & 65535);
        }
    }
    Ok(())
}
