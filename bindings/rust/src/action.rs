use crate::{raw, Update};
use std::iter::FusedIterator;

/// A timer of a session (RFC 4271, section 10), which its host keeps.
#[derive(Clone, Copy, Debug, PartialEq, Eq, Hash)]
pub enum Timer {
    /// The ConnectRetryTimer.
    Retry,
    /// The HoldTimer.
    Hold,
    /// The KeepaliveTimer.
    Keepalive,
}

impl Timer {
    fn of(number: u8) -> Timer {
        match number {
            1 => Timer::Retry,
            2 => Timer::Hold,
            3 => Timer::Keepalive,
            _ => unreachable!("timer {number}"),
        }
    }
}

/// One thing that a session asks its host to do.
#[derive(Clone, Debug, PartialEq, Eq)]
pub enum Action<'a> {
    /// Seek a connection to the peer. [`Event::Connected`](crate::Event::Connected) or
    /// [`Event::Failed`](crate::Event::Failed) reports the result.
    Seek,
    /// Close the connection, or abandon the attempt. Octets received and not consumed are dropped.
    Close,
    /// Send the octets of a message: at most [`MESSAGE`](crate::MESSAGE).
    Send(Vec<u8>),
    /// Start or restart a timer. [`Event::Expired`](crate::Event::Expired) reports that it expired.
    Arm {
        /// The timer.
        timer: Timer,
        /// How long it runs.
        seconds: u16,
    },
    /// Stop a timer.
    Disarm(Timer),
    /// Accept the routes of the received UPDATE: those it announces and those it withdraws.
    /// Attributes with [notes](Update::notes) are discarded.
    Announce(Update<'a>),
    /// Treat the received UPDATE as a withdrawal of all its routes, its
    /// [prefixes](Update::prefixes) (RFC 7606, section 2).
    Withdraw(Update<'a>),
    /// Drop all routes of the peer: the session has ended.
    Flush,
}

impl<'a> Action<'a> {
    /// The action that C reports, of which `message` is to be sent, and `update` was received; each
    /// is present where an action needs it.
    fn of(told: raw::Action, message: &[u8], update: Option<Update<'a>>) -> Action<'a> {
        let update = || update.expect("an UPDATE was heard");
        match told.kind {
            raw::DO_SEEK => Action::Seek,
            raw::DO_CLOSE => Action::Close,
            raw::DO_SEND_OPEN | raw::DO_SEND_KEEPALIVE | raw::DO_SEND_NOTIFICATION => {
                Action::Send(message.to_vec())
            }
            raw::DO_ARM => Action::Arm {
                timer: Timer::of(told.timer),
                seconds: told.seconds,
            },
            raw::DO_DISARM => Action::Disarm(Timer::of(told.timer)),
            raw::DO_ANNOUNCE => Action::Announce(update()),
            raw::DO_WITHDRAW => Action::Withdraw(update()),
            raw::DO_FLUSH => Action::Flush,
            other => unreachable!("action {other}"),
        }
    }
}

/// What a session asks for, to be done in this order: at most six actions.
#[derive(Clone, Debug, Default)]
#[must_use = "a session goes on as if all that it asks for were done"]
pub struct Actions<'a> {
    /// Those from `next` on remain.
    list: [Option<Action<'a>>; raw::ACTIONS + 1],
    next: usize,
}

impl<'a> Actions<'a> {
    /// The actions that C reports: see [`Action::of`].
    pub(crate) fn of(told: &raw::Actions, message: &[u8], update: Option<Update<'a>>) -> Self {
        let mut actions = Actions::default();
        for (place, told) in actions.list.iter_mut().zip(&told.list[..told.count]) {
            *place = Some(Action::of(*told, message, update));
        }
        actions
    }

    /// Sending a message, and then what C reports is to be done once it is sent.
    pub(crate) fn sending(message: &[u8], told: &raw::Actions) -> Self {
        let mut actions = Actions::of(told, &[], None);
        actions.list.rotate_right(1);
        actions.list[0] = Some(Action::Send(message.to_vec()));
        actions
    }
}

impl<'a> Iterator for Actions<'a> {
    type Item = Action<'a>;

    fn next(&mut self) -> Option<Action<'a>> {
        let action = self.list.get_mut(self.next)?.take()?;
        self.next += 1;
        Some(action)
    }

    fn size_hint(&self) -> (usize, Option<usize>) {
        let left = self.list[self.next..].iter().flatten().count();
        (left, Some(left))
    }
}

impl ExactSizeIterator for Actions<'_> {}

impl FusedIterator for Actions<'_> {}
