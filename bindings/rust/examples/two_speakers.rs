use ristulva::{Action, Actions, Config, Error, Event, Session};

/// A session, and the octets that arrived for it.
struct Speaker {
    session: Session,
    held: Vec<u8>,
}

impl Speaker {
    fn new(local_as: u32, peer_as: u32, identifier: [u8; 4]) -> Result<Speaker, Error> {
        let session = Session::new(&Config::new(local_as, peer_as, identifier.into()))?;
        let held = Vec::new();
        Ok(Speaker { session, held })
    }

    /// Passes the first message that arrived to the session, if there is one.
    fn hear(&mut self, peer: &mut Speaker) -> bool {
        let Some(heard) = self.session.hear(&self.held) else {
            return false;
        };
        carry_out(heard.actions, peer);
        let taken = heard.taken;
        self.held.drain(..taken);
        true
    }
}

fn carry_out(actions: Actions<'_>, peer: &mut Speaker) {
    for action in actions {
        match action {
            Action::Send(message) => peer.held.extend(message),
            Action::Announce(update) => update.nlri().for_each(|prefix| println!("{prefix}")),
            Action::Flush => println!("all routes are gone"),
            // Between two buffers there is no connection to seek, and no timer expires.
            _ => {}
        }
    }
}

/// Passes an event to a speaker; then both receive all that follows.
fn happens(event: Event, one: &mut Speaker, other: &mut Speaker) {
    carry_out(one.session.event(event), other);
    while one.hear(other) || other.hear(one) {}
}

fn main() -> Result<(), Error> {
    let mut one = Speaker::new(65001, 65002, [192, 0, 2, 1])?;
    let mut other = Speaker::new(65002, 65001, [192, 0, 2, 2])?;
    for event in [Event::Start, Event::Connected] {
        happens(event, &mut one, &mut other);
        happens(event, &mut other, &mut one);
    }
    // 10.0.0.0/8 by AS 65001, and by 192.0.2.1.
    let attributes = [
        &[64, 1, 1, 0][..],
        &[64, 2, 6, 2, 1, 0, 0, 253, 233],
        &[64, 3, 4, 192, 0, 2, 1],
    ];
    let body = [&[0, 0, 0, 20], &attributes.concat()[..], &[8, 10]].concat();
    carry_out(one.session.send(&body)?, &mut other);
    other.hear(&mut one);
    happens(Event::Stop, &mut one, &mut other);
    Ok(())
}
