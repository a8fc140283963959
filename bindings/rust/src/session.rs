use crate::message::NOTIFICATION;
use crate::{raw, Actions, Config, Context, Error, Open, Outcome, Timer, Update, MESSAGE};
use std::fmt;
use std::net::Ipv4Addr;

/// What happens to a session (RFC 4271, section 8.1).
#[derive(Clone, Copy, Debug, PartialEq, Eq, Hash)]
pub enum Event {
    /// The operator wants the session.
    Start,
    /// The operator ends it.
    Stop,
    /// A timer has expired.
    Expired(Timer),
    /// The connection is up.
    Connected,
    /// The connection, or the try for one, failed.
    Failed,
}

impl Event {
    /// Its number there.
    fn number(self) -> u32 {
        match self {
            Event::Start => 1,
            Event::Stop => 2,
            Event::Expired(Timer::Retry) => 9,
            Event::Expired(Timer::Hold) => 10,
            Event::Expired(Timer::Keepalive) => 11,
            Event::Connected => 16,
            Event::Failed => 18,
        }
    }
}

/// The state of a session (RFC 4271, section 8.2.2). It is printed by its name.
#[derive(Clone, Copy, Debug, PartialEq, Eq, PartialOrd, Ord, Hash)]
pub enum State {
    /// There is no connection, and none is sought.
    Idle,
    /// A connection is sought.
    Connect,
    /// The connection failed: another is sought when the Retry Timer has expired.
    Active,
    /// The own OPEN is sent.
    OpenSent,
    /// The peer's OPEN is accepted.
    OpenConfirm,
    /// UPDATEs are exchanged.
    Established,
}

impl State {
    /// The state that has a number (RFC 4273).
    fn of(number: u8) -> State {
        match number {
            1 => State::Idle,
            2 => State::Connect,
            3 => State::Active,
            4 => State::OpenSent,
            5 => State::OpenConfirm,
            6 => State::Established,
            _ => unreachable!("state {number}"),
        }
    }
}

impl fmt::Display for State {
    fn fmt(&self, f: &mut fmt::Formatter<'_>) -> fmt::Result {
        fmt::Debug::fmt(self, f)
    }
}

/// The parameters of a peer's OPEN (RFC 4271, section 4.2).
#[derive(Clone, Debug, PartialEq, Eq, Hash)]
pub struct Peer {
    /// Its AS number: that of its capability for AS numbers of four octets, else My Autonomous
    /// System (RFC 6793, section 4.1).
    pub as_number: u32,
    /// Its BGP Identifier.
    pub identifier: Ipv4Addr,
    /// The Hold Time that it proposes, in seconds: 0 for none.
    pub hold_time: u16,
    /// Whether it offers AS numbers of four octets (RFC 6793).
    pub as4: bool,
    /// Whether it offers IPv4 unicast (RFC 4760, section 8).
    pub ip4: bool,
    /// Whether it offers IPv6 unicast.
    pub ip6: bool,
    /// The codes of all its capabilities, each once, rising (RFC 5492, section 4).
    pub codes: Vec<u8>,
}

/// What a session received.
#[derive(Clone, Debug)]
pub struct Heard<'a> {
    /// The number of octets consumed: those of the message, or 19 of a header with a fault. The
    /// peer's next message begins after them.
    pub taken: usize,
    /// What the message means in the session's state and context.
    pub outcome: Outcome<'a>,
    /// What is to be done.
    pub actions: Actions<'a>,
}

/// One speaker's end of one connection (RFC 4271, section 8).
///
/// It does no IO and knows no time: its host opens and closes the connection, keeps the timers,
/// passes events and received octets to it, and does what it asks for. What doesn't
/// belong in its state does nothing.
///
/// It is some 4.5 KB of memory, which is freed when it is dropped. Nothing is sent by that:
/// [`Event::Stop`] comes before it. It moves between threads, but isn't shared by them.
///
/// ```
/// use ristulva::{Action, Config, Event, Session, State, Timer};
///
/// let config = Config::new(65001, 65002, [192, 0, 2, 1].into());
/// let mut session = Session::new(&config)?;
/// let actions: Vec<_> = session.event(Event::Start).collect();
/// assert_eq!(actions, [Action::Arm { timer: Timer::Retry, seconds: 120 }, Action::Seek]);
/// assert_eq!(session.state(), State::Connect);
/// # Ok::<(), ristulva::Error>(())
/// ```
///
/// ```compile_fail,E0277
/// fn is_shared<T: Sync>() {}
/// is_shared::<ristulva::Session>();
/// ```
///
/// ```compile_fail,E0277
/// fn is_copied<T: Clone>() {}
/// is_copied::<ristulva::Session>();
/// ```
pub struct Session(raw::Session);

impl Session {
    /// A session in [`State::Idle`].
    ///
    /// # Errors
    ///
    /// [`Error::Config`] and [`Error::Memory`].
    pub fn new(config: &Config) -> Result<Session, Error> {
        match raw::Session::new(&config.said()) {
            Ok(session) => Ok(Session(session)),
            Err(raw::CONFIG) => Err(Error::Config),
            Err(status) => Err(Error::of(status)),
        }
    }

    /// Its state.
    pub fn state(&self) -> State {
        State::of(self.0.state())
    }

    /// Passes an event to it. What doesn't belong in its state does nothing, nor does a timer that
    /// it hasn't started.
    pub fn event(&mut self, event: Event) -> Actions<'static> {
        let mut message = [0; MESSAGE];
        let (told, len) = self.0.event(event.number(), &mut message);
        Actions::of(&told, &message[..len], None)
    }

    /// Passes it the message, or the header with a fault, that octets of the peer begin with.
    /// Octets after a message are ignored.
    ///
    /// `None`, and nothing has changed, where the octets are less than a message, or where the
    /// connection isn't up, so that octets have no meaning: in Idle, Connect and Active.
    ///
    /// Its host drops what was [consumed](Heard::taken) from the beginning of what it has received,
    /// and calls it again, up to `None`:
    ///
    /// ```
    /// # use ristulva::{Action, Actions, Session};
    /// # fn carry_out(actions: Actions<'_>) {}
    /// fn came(session: &mut Session, held: &mut Vec<u8>) {
    ///     while let Some(heard) = session.hear(held) {
    ///         carry_out(heard.actions);
    ///         let taken = heard.taken;
    ///         held.drain(..taken);
    ///     }
    /// }
    /// ```
    pub fn hear<'a>(&mut self, octets: &'a [u8]) -> Option<Heard<'a>> {
        let mut message = [0; MESSAGE];
        let (heard, (told, len)) = self.0.hear(octets, &mut message)?;
        let (taken, message) = (heard.len as usize, &message[..len]);
        let outcome = self.outcome(&heard, &octets[..taken], message);
        let update = match outcome {
            Outcome::Update(update) | Outcome::Withdraw(update) => Some(update),
            _ => None,
        };
        Some(Heard {
            taken,
            outcome,
            actions: Actions::of(&told, message, update),
        })
    }

    /// The outcome of some octets, which `message` answers.
    fn outcome<'a>(&self, heard: &raw::Heard, octets: &'a [u8], message: &[u8]) -> Outcome<'a> {
        let (code, subcode) = (heard.code, heard.subcode);
        let update = || Update::new(octets, self.context().unwrap_or_default(), heard.parts);
        match heard.heard {
            raw::OPEN => Outcome::Open(Open::of(octets).expect("it is accepted")),
            raw::UPDATE => Outcome::Update(update()),
            raw::WITHDRAW => Outcome::Withdraw(update()),
            raw::KEEPALIVE => Outcome::Keepalive,
            raw::NOTIFICATION => Outcome::Notification {
                code,
                subcode,
                data: &octets[NOTIFICATION..],
            },
            raw::RESET => Outcome::Reset {
                code,
                subcode,
                data: message[NOTIFICATION..].to_vec(),
            },
            other => unreachable!("heard {other}"),
        }
    }

    /// What both speakers agreed on. `None` in all states but OpenConfirm and Established.
    pub fn context(&self) -> Option<Context> {
        self.0.context().map(|(context, _)| Context::of(&context))
    }

    /// The Hold Time that both agreed on, in seconds: 0 for none. `None` as
    /// [`context`](Session::context) is.
    pub fn hold_time(&self) -> Option<u16> {
        self.0.context().map(|(_, hold)| hold)
    }

    /// The parameters of the peer's OPEN. `None` as [`context`](Session::context) is.
    pub fn peer(&self) -> Option<Peer> {
        let (peer, mut codes) = (self.0.peer()?, [0; 256]);
        let count = self.0.codes(&mut codes)?;
        Some(Peer {
            as_number: peer.as_number,
            identifier: peer.id.into(),
            hold_time: peer.hold,
            as4: peer.as4 != 0,
            ip4: peer.ip4 != 0,
            ip6: peer.ip6 != 0,
            codes: codes[..count].to_vec(),
        })
    }

    /// The message of its own OPEN (RFC 4271, section 4.2).
    pub fn open_message(&self) -> Vec<u8> {
        let mut message = [0; MESSAGE];
        let len = self.0.open(&mut message);
        message[..len].to_vec()
    }

    /// An UPDATE as the session sends it now: it is to be sent, and the Keepalive Timer, where
    /// there is one, to be restarted. The session is unchanged.
    ///
    /// `body` is the body of that UPDATE in any valid form, as for [`encode`](crate::encode),
    /// with 4-octet AS numbers, whatever the session has, and one kind of routes: withdrawn,
    /// announced, or those of one of the multiprotocol attributes (RFC 7606, section 5.1). A peer
    /// with 2-octet AS numbers gets it as [`narrow`](crate::narrow) writes it.
    ///
    /// # Errors
    ///
    /// [`Error::State`], it isn't Established, whatever the body is; [`Error::TooLong`],
    /// [`Error::Refused`], [`Error::Mixed`], [`Error::Unwritable`] and [`Error::Memory`].
    pub fn send(&self, body: &[u8]) -> Result<Actions<'static>, Error> {
        let mut message = [0; MESSAGE];
        let (told, len) = self.0.send(body, &mut message).map_err(Error::of)?;
        Ok(Actions::sending(&message[..len], &told))
    }
}

impl fmt::Debug for Session {
    fn fmt(&self, f: &mut fmt::Formatter<'_>) -> fmt::Result {
        f.debug_struct("Session")
            .field("state", &self.state())
            .finish_non_exhaustive()
    }
}
