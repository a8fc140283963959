use crate::{raw, Context};

/// Which ROUTE-REFRESH a reader accepts.
#[derive(Clone, Copy, Debug, Default, PartialEq, Eq, Hash)]
pub enum Refreshes {
    /// None: it doesn't offer it (capability 2).
    #[default]
    None,
    /// Requests (RFC 2918).
    Plain,
    /// And the marks where a refresh begins and ends, which both offer (capability 70; RFC 7313).
    Enhanced,
}

/// What both speakers agreed on for one direction of their session, from a sender to a reader: the
/// sender's messages are read by it. By default nothing.
///
/// A message has at most [`MESSAGE`](crate::MESSAGE) octets, whatever is agreed on.
#[derive(Clone, Copy, Debug, Default, PartialEq, Eq, Hash)]
pub struct Terms {
    /// The context in which all messages but a ROUTE-REFRESH are read.
    pub context: Context,
    /// Which ROUTE-REFRESH is accepted.
    pub refresh: Refreshes,
    /// The reader accepts messages of up to 65535 octets (capability 6; RFC 8654).
    pub long_messages: bool,
    /// The sender does: NOTIFICATIONs to it may be that long.
    pub long_back: bool,
    /// IPv4 unicast routes have path identifiers (capability 69; RFC 7911):
    /// [`judge_paths`](crate::judge_paths) reads such a message.
    pub paths4: bool,
    /// IPv6 unicast routes have path identifiers.
    pub paths6: bool,
    /// IPv4 unicast routes may have an IPv6 next hop (capability 5; RFC 8950).
    pub hop6: bool,
}

impl Terms {
    /// From C's form.
    fn of(told: &raw::Terms) -> Terms {
        Terms {
            context: Context::of(&told.context),
            refresh: match told.refresh {
                0 => Refreshes::None,
                1 => Refreshes::Plain,
                2 => Refreshes::Enhanced,
                other => unreachable!("refresh {other} of terms"),
            },
            long_messages: told.long_messages != 0,
            long_back: told.long_back != 0,
            paths4: told.paths4 != 0,
            paths6: told.paths6 != 0,
            hop6: told.hop6 != 0,
        }
    }

    /// The same, but for path identifiers, which no route has.
    pub(crate) fn plain(&self) -> Terms {
        Terms {
            paths4: false,
            paths6: false,
            ..*self
        }
    }

    /// In C's form.
    pub(crate) fn said(&self) -> raw::Terms {
        raw::Terms {
            context: self.context.said(),
            refresh: self.refresh as u8,
            long_messages: self.long_messages.into(),
            long_back: self.long_back.into(),
            paths4: self.paths4.into(),
            paths6: self.paths6.into(),
            hop6: self.hop6.into(),
        }
    }
}

/// What two speakers agree on by their OPENs for one direction of their session.
#[derive(Clone, Copy, Debug, PartialEq, Eq)]
pub struct AgreedTerms {
    /// The terms by which the reader's messages from the sender are read.
    pub terms: Terms,
    /// The Hold Time in seconds: 0 for none.
    pub hold_time: u16,
}

/// The terms for what a reader receives from a sender, given octets that begin with the OPEN of
/// each. `None` where one of them isn't an accepted OPEN; neither is refused for what it says.
pub fn terms_of(reader: &[u8], sender: &[u8]) -> Option<AgreedTerms> {
    let (terms, hold_time) = raw::terms_of(reader, sender)?;
    let terms = Terms::of(&terms);
    Some(AgreedTerms { terms, hold_time })
}
