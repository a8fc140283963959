//! Prints the outcome of each message of a stream on standard input, and how the stream ends, as
//! `bgp show` does:
//!
//!     show [--as4] [--ip4] [--ip6] [--internal] < STREAM
//!
//! It ends with 1 where a message wasn't accepted, or the stream ends inside of one.

use ristulva::{messages, Context, Outcome};
use std::io::{self, Read, Write};
use std::process::ExitCode;

/// What the words of the command line say of the session; `None` where one of them is unknown.
fn context() -> Option<Context> {
    let mut context = Context::default();
    for word in std::env::args().skip(1) {
        match word.as_str() {
            "--as4" => context.as4 = true,
            "--ip4" => context.ip4 = true,
            "--ip6" => context.ip6 = true,
            "--internal" => context.internal = true,
            _ => return None,
        }
    }
    Some(context)
}

/// Prints a stream. Whether each of its messages is whole and accepted.
fn show(context: &Context, octets: &[u8], mut out: impl Write) -> io::Result<bool> {
    let (mut good, mut ends) = (true, None);
    let mut stream = messages(context, octets);
    for message in stream.by_ref() {
        write!(out, "{message}")?;
        good &= !matches!(message.outcome(), Outcome::Withdraw(_));
        if let Outcome::Reset { .. } = message.outcome() {
            // The end of a message can't be known from a faulty header.
            let is_header = message.octets().is_empty();
            ends = Some(if is_header { "head" } else { "reset" });
        }
    }
    match ends {
        Some(ends) => writeln!(out, "end {ends}")?,
        None => writeln!(out, "end wait {}", stream.rest().len())?,
    }
    out.flush()?;
    Ok(good && ends.is_none() && stream.rest().is_empty())
}

fn main() -> io::Result<ExitCode> {
    let Some(context) = context() else {
        eprintln!("usage: show [--as4] [--ip4] [--ip6] [--internal] < STREAM");
        return Ok(ExitCode::from(2));
    };
    let mut octets = Vec::new();
    io::stdin().lock().read_to_end(&mut octets)?;
    let good = show(&context, &octets, io::BufWriter::new(io::stdout().lock()))?;
    Ok(ExitCode::from(u8::from(!good)))
}
