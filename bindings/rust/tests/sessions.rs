//! Two sessions, whose octets go from one to the other by buffers: what each does is what the table
//! of docs/LIBRARY.md and the RFCs say.

use ristulva::{
    judge, Action, Actions, Config, Context, Error, Event, Outcome, Session, State, Timer, BODY,
};

/// The body of an UPDATE: 10.0.0.0/8 by the path 70000 65001, next hop 192.0.2.1.
const ANNOUNCEMENT: [u8; 30] = [
    0, 0, 0, 24, 64, 1, 1, 0, 64, 2, 10, 2, 2, 0, 1, 17, 112, 0, 0, 253, 233, 64, 3, 4, 192, 0, 2,
    1, 8, 10,
];

/// The same by the path 65001 and without a next hop.
const WITHOUT_HOP: [u8; 19] = [
    0, 0, 0, 13, 64, 1, 1, 0, 64, 2, 6, 2, 1, 0, 0, 253, 233, 8, 10,
];

const RETRY: Action = Action::Arm {
    timer: Timer::Retry,
    seconds: 120,
};

fn hold(seconds: u16) -> Action<'static> {
    let timer = Timer::Hold;
    Action::Arm { timer, seconds }
}

fn keepalive(seconds: u16) -> Action<'static> {
    let timer = Timer::Keepalive;
    Action::Arm { timer, seconds }
}

fn message(kind: u8, body: &[u8]) -> Vec<u8> {
    let len = (19 + body.len() as u16).to_be_bytes();
    [&[0xff; 16][..], &len, &[kind], body].concat()
}

fn local() -> Config {
    Config {
        hold_time: 30,
        ip6: true,
        ..Config::new(65001, 65002, [192, 0, 2, 1].into())
    }
}

fn remote() -> Config {
    Config::new(65002, 65001, [192, 0, 2, 2].into())
}

/// A session, and what arrived for it.
struct Side {
    session: Session,
    held: Vec<u8>,
}

/// What a side received, as text, and what it did.
type Told = (String, Vec<Action<'static>>);

/// Carries out actions: what is sent is passed to the peer. Updates are left out.
fn done(actions: Actions<'_>, peer: &mut Side) -> Vec<Action<'static>> {
    actions
        .map(|action| match action {
            Action::Send(octets) => {
                peer.held.extend(&octets);
                Action::Send(octets)
            }
            Action::Arm { timer, seconds } => Action::Arm { timer, seconds },
            Action::Disarm(timer) => Action::Disarm(timer),
            Action::Seek => Action::Seek,
            Action::Close => Action::Close,
            Action::Flush => Action::Flush,
            Action::Announce(update) | Action::Withdraw(update) => {
                panic!("{:?}", update.prefixes().collect::<Vec<_>>())
            }
        })
        .collect()
}

impl Side {
    fn new(config: &Config) -> Side {
        Side {
            session: Session::new(config).expect("it is allowed"),
            held: Vec::new(),
        }
    }

    fn happens(&mut self, event: Event, peer: &mut Side) -> Vec<Action<'static>> {
        done(self.session.event(event), peer)
    }

    /// Receives the first message that came, which isn't an UPDATE that is accepted.
    fn hears(&mut self, peer: &mut Side) -> Option<Told> {
        let heard = self.session.hear(&self.held)?;
        let told = match heard.outcome {
            Outcome::Open(open) => format!("OPEN {}", open.as_number()),
            Outcome::Keepalive => "KEEPALIVE".to_string(),
            Outcome::Notification { code, subcode, .. } => format!("{code}/{subcode} came"),
            Outcome::Reset { code, subcode, .. } => format!("{code}/{subcode} sent"),
            Outcome::Update(_) | Outcome::Withdraw(_) => panic!("an UPDATE"),
        };
        let done = done(heard.actions, peer);
        let taken = heard.taken;
        self.held.drain(..taken);
        Some((told, done))
    }
}

/// Two sides in OpenSent, the OPEN of each at the other.
fn connected(local: &Config, remote: &Config) -> (Side, Side) {
    let (mut one, mut other) = (Side::new(local), Side::new(remote));
    for event in [Event::Start, Event::Connected] {
        one.happens(event, &mut other);
        other.happens(event, &mut one);
    }
    (one, other)
}

/// Two sides in Established.
fn established(local: &Config, remote: &Config) -> (Side, Side) {
    let (mut one, mut other) = connected(local, remote);
    while one.hears(&mut other).is_some() || other.hears(&mut one).is_some() {}
    assert_eq!(one.session.state(), State::Established);
    assert_eq!(other.session.state(), State::Established);
    (one, other)
}

#[test]
fn comes_up() {
    let (mut one, mut other) = (Side::new(&local()), Side::new(&remote()));
    let opens = [&one, &other].map(|side| Action::Send(side.session.open_message()));
    assert_eq!(one.session.state(), State::Idle);
    assert_eq!(one.happens(Event::Start, &mut other), [RETRY, Action::Seek]);
    assert_eq!(one.session.state(), State::Connect);
    let wanted = [Action::Disarm(Timer::Retry), opens[0].clone(), hold(240)];
    assert_eq!(one.happens(Event::Connected, &mut other), wanted);
    assert_eq!(one.session.state(), State::OpenSent);
    assert!(one.hears(&mut other).is_none());

    other.happens(Event::Start, &mut one);
    other.happens(Event::Connected, &mut one);
    let answer = Action::Send(message(4, &[]));
    let wanted = vec![answer, hold(30), keepalive(10)];
    let told = one.hears(&mut other);
    assert_eq!(told, Some(("OPEN 65002".to_string(), wanted.clone())));
    assert_eq!(one.session.state(), State::OpenConfirm);
    let told = other.hears(&mut one);
    assert_eq!(told, Some(("OPEN 65001".to_string(), wanted)));
    let wanted = Some(("KEEPALIVE".to_string(), vec![hold(30)]));
    assert_eq!(one.hears(&mut other), wanted);
    assert_eq!(other.hears(&mut one), wanted);
    assert!(one.hears(&mut other).is_none() && other.hears(&mut one).is_none());
    assert_eq!(one.session.state(), State::Established);
    assert_eq!(other.session.state(), State::Established);
}

/// RFC 4271, section 4.2: the smaller Hold Time. RFC 4760, section 8: what both offer.
#[test]
fn agreed() {
    let (one, other) = established(&local(), &remote());
    let context = Context {
        as4: true,
        ip4: true,
        ..Context::default()
    };
    for side in [&one, &other] {
        assert_eq!(side.session.context(), Some(context));
        assert_eq!(side.session.hold_time(), Some(30));
    }
    let peer = other.session.peer().expect("it is accepted");
    assert_eq!((peer.as_number, peer.hold_time), (65001, 30));
    assert_eq!(peer.identifier.to_string(), "192.0.2.1");
    assert_eq!((peer.as4, peer.ip4, peer.ip6), (true, true, true));
    assert_eq!(peer.codes, [1, 65]);
}

/// A session with a peer of the same AS, for IPv6 alone, with 2-octet AS numbers.
#[test]
fn agreed_inside_of_an_as() {
    let inside = |identifier: u8| Config {
        as4: false,
        ip4: false,
        ip6: true,
        ..Config::new(65001, 65001, [192, 0, 2, identifier].into())
    };
    let (one, _) = established(&inside(1), &inside(2));
    let context = Context {
        internal: true,
        ip6: true,
        ..Context::default()
    };
    assert_eq!(one.session.context(), Some(context));
    let peer = one.session.peer().expect("it is accepted");
    assert_eq!((peer.as4, peer.ip4, peer.ip6), (false, false, true));
    assert_eq!(peer.codes, [1]);
}

#[test]
fn nothing_is_agreed_before() {
    let (one, _) = connected(&local(), &remote());
    assert_eq!(one.session.context(), None);
    assert_eq!(one.session.hold_time(), None);
    assert_eq!(one.session.peer(), None);
}

#[test]
fn no_hold_time() {
    let without = Config {
        hold_time: 0,
        ..remote()
    };
    let (one, _) = established(&local(), &without);
    assert_eq!(one.session.hold_time(), Some(0));
    let actions = one.session.send(&ANNOUNCEMENT).expect("it is accepted");
    assert_eq!(actions.len(), 1);
}

#[test]
fn routes() {
    let (one, mut other) = established(&local(), &remote());
    let mut actions = one.session.send(&ANNOUNCEMENT).expect("it is accepted");
    assert_eq!(actions.len(), 2);
    let octets = message(2, &ANNOUNCEMENT);
    assert_eq!(actions.next(), Some(Action::Send(octets.clone())));
    assert_eq!(actions.next(), Some(keepalive(10)));
    assert_eq!(actions.next(), None);

    let heard = other.session.hear(&octets).expect("a message");
    assert_eq!(heard.taken, octets.len());
    let Outcome::Update(update) = heard.outcome else {
        panic!("{:?}", heard.outcome)
    };
    let actions: Vec<_> = heard.actions.collect();
    assert_eq!(actions, [Action::Announce(update), hold(30)]);
    let prefixes: Vec<_> = update.nlri().map(|prefix| prefix.to_string()).collect();
    assert_eq!(prefixes, ["10.0.0.0/8"]);
    let path = update.as_path().into_iter().flatten();
    let numbers: Vec<_> = path.flat_map(|segment| segment.numbers()).collect();
    assert_eq!(numbers, [70000, 65001]);
}

/// RFC 6793, section 4.2.2: a speaker with AS numbers of two octets gets 23456, and AS4_PATH.
#[test]
fn routes_in_two_octets() {
    let narrow = Config {
        as4: false,
        ..remote()
    };
    let (one, mut other) = established(&local(), &narrow);
    let Some(Action::Send(octets)) = one.session.send(&ANNOUNCEMENT).unwrap().next() else {
        panic!("nothing is sent")
    };
    let heard = other.session.hear(&octets).expect("a message");
    let Outcome::Update(update) = heard.outcome else {
        panic!("{:?}", heard.outcome)
    };
    let numbers = |path: Option<ristulva::Segments<'_>>| -> Vec<u32> {
        let segments = path.into_iter().flatten();
        segments.flat_map(|segment| segment.numbers()).collect()
    };
    assert_eq!(numbers(update.as_path()), [23456, 65001]);
    assert_eq!(numbers(update.as4_path()), [70000, 65001]);
}

/// RFC 7606, section 3, item d: a mandatory attribute is missing. The session stays up.
#[test]
fn withdrawal() {
    let (_, mut other) = established(&local(), &remote());
    let octets = message(2, &WITHOUT_HOP);
    let heard = other.session.hear(&octets).expect("a message");
    let Outcome::Withdraw(update) = heard.outcome else {
        panic!("{:?}", heard.outcome)
    };
    let actions: Vec<_> = heard.actions.collect();
    assert_eq!(actions, [Action::Withdraw(update), hold(30)]);
    assert_eq!(update.prefixes().count(), 1);
    assert_eq!(other.session.state(), State::Established);
}

/// What is done where a session ends from Established.
fn left(first: &[Action<'static>]) -> Vec<Action<'static>> {
    let rest = [
        Action::Close,
        Action::Disarm(Timer::Hold),
        Action::Disarm(Timer::Keepalive),
        Action::Flush,
    ];
    [first, &rest].concat()
}

/// RFC 4271, section 6.1: a Length that isn't that of its type.
#[test]
fn fault_is_answered() {
    let (mut one, mut other) = established(&local(), &remote());
    let mut octets = message(4, &[]);
    octets[17] = 20;
    octets.push(0);
    let heard = other.session.hear(&octets).expect("a header with a fault");
    let (code, subcode, data) = (1, 2, vec![0, 20]);
    let reset = Outcome::Reset {
        code,
        subcode,
        data,
    };
    assert_eq!((heard.taken, heard.outcome), (19, reset));
    let answer = Action::Send(message(3, &[1, 2, 0, 20]));
    assert_eq!(done(heard.actions, &mut one), left(&[answer]));
    assert_eq!(other.session.state(), State::Idle);
    let told = one.hears(&mut other);
    assert_eq!(told, Some(("1/2 came".to_string(), left(&[]))));
    assert_eq!(one.session.state(), State::Idle);
}

/// RFC 4271, section 6.3: Withdrawn Routes that are longer than the message.
#[test]
fn update_that_resets() {
    let (mut one, mut other) = established(&local(), &remote());
    other.held = message(2, &[0, 9, 0, 0]);
    let answer = Action::Send(message(3, &[3, 1]));
    let told = other.hears(&mut one);
    assert_eq!(told, Some(("3/1 sent".to_string(), left(&[answer]))));
    assert_eq!(other.session.context(), None);
}

/// RFC 4271, section 6.2, and RFC 6608, section 4.
#[test]
fn refused_before_it_stands() {
    let another = Config {
        local_as: 65003,
        ..remote()
    };
    let (mut one, mut other) = connected(&local(), &another);
    let (told, _) = one.hears(&mut other).expect("a message");
    assert_eq!(told, "2/2 sent");
    assert_eq!(one.session.state(), State::Idle);

    let (mut one, mut other) = connected(&local(), &remote());
    one.held = message(2, &ANNOUNCEMENT);
    let (told, done) = one.hears(&mut other).expect("a message");
    assert_eq!(told, "5/1 sent");
    assert_eq!(done[0], Action::Send(message(3, &[5, 1, 2])));
}

#[test]
fn stopped() {
    let (mut one, mut other) = established(&local(), &remote());
    let cease = Action::Send(message(3, &[6, 0]));
    let done = one.happens(Event::Stop, &mut other);
    assert_eq!(done, left(&[cease]));
    let told = other.hears(&mut one);
    assert_eq!(told, Some(("6/0 came".to_string(), left(&[]))));
    for mut side in [one, other] {
        assert_eq!(side.session.state(), State::Idle);
        assert_eq!(side.session.context(), None);
        assert_eq!(side.session.peer(), None);
        assert!(side.session.hear(&message(4, &[])).is_none());
        assert_eq!(side.session.event(Event::Stop).count(), 0);
        assert_eq!(side.session.send(&ANNOUNCEMENT).err(), Some(Error::State));
    }
}

/// Until it is up, a connection is sought again when the Retry Timer has run out.
#[test]
fn sought_again() {
    let (mut one, mut other) = (Side::new(&local()), Side::new(&remote()));
    let retry = Event::Expired(Timer::Retry);
    one.happens(Event::Start, &mut other);
    let done = one.happens(retry, &mut other);
    assert_eq!(done, [Action::Close, RETRY, Action::Seek]);
    one.happens(Event::Connected, &mut other);
    let done = one.happens(Event::Failed, &mut other);
    assert_eq!(done, [Action::Disarm(Timer::Hold), RETRY]);
    assert_eq!(one.session.state(), State::Active);
    assert_eq!(one.happens(retry, &mut other), [RETRY, Action::Seek]);
    assert_eq!(one.session.state(), State::Connect);
}

#[test]
fn expired_and_failed() {
    let (mut one, mut other) = established(&local(), &remote());
    let answer = Action::Send(message(4, &[]));
    let done = one.happens(Event::Expired(Timer::Keepalive), &mut other);
    assert_eq!(done, [answer, keepalive(10)]);
    assert_eq!(one.happens(Event::Expired(Timer::Retry), &mut other), []);
    let done = one.happens(Event::Expired(Timer::Hold), &mut other);
    assert_eq!(done[0], Action::Send(message(3, &[4, 0])));
    let done = other.happens(Event::Failed, &mut one);
    assert_eq!(done, left(&[])[1..]);
}

/// Less than a message changes nothing, and octets after one have no effect.
#[test]
fn pieces() {
    let (_, mut other) = established(&local(), &remote());
    let octets = [message(2, &ANNOUNCEMENT), message(9, &[])].concat();
    let len = 19 + ANNOUNCEMENT.len();
    for end in 0..len {
        assert!(other.session.hear(&octets[..end]).is_none());
        assert_eq!(other.session.state(), State::Established);
    }
    let heard = other.session.hear(&octets).expect("a message");
    assert_eq!(heard.taken, len);
    let heard = other.session.hear(&octets[len..]).expect("a fault");
    assert!(matches!(
        heard.outcome,
        Outcome::Reset {
            code: 1,
            subcode: 3,
            ..
        }
    ));
}

/// Whatever one octet is, a session that is up receives what `judge` finds; but an OPEN doesn't belong
/// there (RFC 6608, section 4). It stays up exactly where no NOTIFICATION came or is sent.
#[test]
fn changed_octets() {
    for octets in [
        message(1, &[4, 0xfd, 0xe8, 0, 90, 192, 0, 2, 1, 0]),
        message(2, &ANNOUNCEMENT),
        message(2, &WITHOUT_HOP),
        message(3, &[6, 2]),
        message(4, &[]),
    ] {
        for at in 0..octets.len() {
            for octet in [0, 1, 2, 3, 4, 19, octets[at] ^ 1, 0x80, 0xff] {
                let mut octets = octets.clone();
                octets[at] = octet;
                compare(&octets);
            }
        }
    }
}

/// Compares what a session in Established receives with what `judge` finds.
fn compare(octets: &[u8]) {
    let (_, mut other) = established(&local(), &remote());
    let context = other.session.context().expect("it stands");
    let judged = judge(&context, octets);
    let heard = other.session.hear(octets);
    assert_eq!(heard.is_some(), judged.is_some());
    let (Some(heard), Some(judged)) = (heard, judged) else {
        assert_eq!(other.session.state(), State::Established);
        return;
    };
    assert_eq!(heard.taken, judged.octets().len().max(19));
    let is_header = judged.octets().is_empty();
    if octets[18] == 1 && !is_header {
        let (code, subcode, data) = (5, 3, vec![1]);
        let wanted = Outcome::Reset {
            code,
            subcode,
            data,
        };
        assert_eq!(heard.outcome, wanted);
    } else {
        assert_eq!(&heard.outcome, judged.outcome());
    }
    let ends = matches!(
        heard.outcome,
        Outcome::Reset { .. } | Outcome::Notification { .. }
    );
    assert_eq!(other.session.state() == State::Idle, ends, "{octets:?}");
    assert_eq!(heard.actions.last() == Some(Action::Flush), ends);
}

/// RFC 7607; RFC 6793, section 4.1; RFC 6286, section 2.1; RFC 4271, section 4.2.
#[test]
fn configs() {
    let good = local();
    let as4 = false;
    for config in [
        Config {
            local_as: 0,
            ..good
        },
        Config { peer_as: 0, ..good },
        Config {
            local_as: 70000,
            as4,
            ..good
        },
        Config {
            identifier: [0; 4].into(),
            ..good
        },
        Config {
            hold_time: 2,
            ..good
        },
    ] {
        assert_eq!(Session::new(&config).err(), Some(Error::Config));
    }
}

/// RFC 7606, section 5.1: one kind of routes.
#[test]
fn refused() {
    let (one, _) = established(&local(), &remote());
    let send = |body: &[u8]| one.session.send(body).err();
    assert_eq!(send(&WITHOUT_HOP), Some(Error::Refused));
    let mixed = [&[0, 2, 8, 12][..], &ANNOUNCEMENT[2..]].concat();
    assert_eq!(send(&mixed), Some(Error::Mixed));
    assert_eq!(send(&vec![0; BODY + 1]), Some(Error::TooLong));
    assert_eq!(send(&ANNOUNCEMENT), None);
}

/// In all states but Established no body is judged.
#[test]
fn state_first() {
    let (mut one, mut other) = connected(&local(), &remote());
    one.hears(&mut other).expect("an OPEN");
    assert_eq!(one.session.state(), State::OpenConfirm);
    assert_eq!(other.session.state(), State::OpenSent);
    for session in [one.session, other.session, Side::new(&local()).session] {
        for body in [&ANNOUNCEMENT[..], &WITHOUT_HOP, &[255], &[0; BODY + 1]] {
            assert_eq!(session.send(body).err(), Some(Error::State));
        }
    }
}

/// A session goes to another thread.
#[test]
fn another_thread() {
    let (mut one, mut other) = connected(&local(), &remote());
    let state = std::thread::spawn(move || {
        one.hears(&mut other);
        one.session.state()
    });
    assert_eq!(state.join().expect("it returns"), State::OpenConfirm);
}

/// What is dropped is freed: 40,000 sessions would be some 180 MB.
#[cfg(target_os = "linux")]
#[test]
fn freed() {
    let pages = || -> usize {
        let text = std::fs::read_to_string("/proc/self/statm").expect("the kernel tells");
        let resident = text.split(' ').nth(1).expect("the second word");
        resident.parse().expect("a number")
    };
    let before = pages();
    for _ in 0..40_000 {
        let mut session = Session::new(&local()).expect("it is allowed");
        assert_eq!(session.event(Event::Start).len(), 2);
    }
    assert!(pages() < before + 10_000);
}
