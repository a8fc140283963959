use crate::{messages, raw, Context, Messages};

/// What two speakers agree on by their OPENs.
#[derive(Clone, Copy, Debug, PartialEq, Eq)]
pub struct Agreed {
    /// The context of their session.
    pub context: Context,
    /// Its Hold Time in seconds: 0 for none.
    pub hold_time: u16,
}

/// What two speakers agree on, given octets that begin with the OPEN of each, as each of them finds
/// it, and as `bgp show --opens` does. `None` where one of them isn't an accepted OPEN; neither is
/// refused for what it says: a direction for which both agree on path identifiers (capability 69;
/// RFC 7911) is read by the terms of [`terms_of`](crate::terms_of).
pub fn agree(ours: &[u8], theirs: &[u8]) -> Option<Agreed> {
    let (context, hold_time) = raw::agree(ours, theirs)?;
    let context = Context::of(&context);
    Some(Agreed { context, hold_time })
}

/// The messages of both directions of a session, each as [`messages`] gives them, in the context
/// that their first OPENs agree on: `None` as for [`agree`].
pub fn directions<'a>(ours: &'a [u8], theirs: &'a [u8]) -> Option<(Messages<'a>, Messages<'a>)> {
    let context = agree(ours, theirs)?.context;
    Some((messages(&context, ours), messages(&context, theirs)))
}
