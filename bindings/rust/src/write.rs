use crate::{raw, Context, Error, MESSAGE};

/// What a call writes into the room of a message.
fn written(call: impl FnOnce(&mut [u8]) -> (u32, usize)) -> Result<Vec<u8>, Error> {
    let mut message = vec![0; MESSAGE];
    match call(&mut message) {
        (raw::OK, len) => {
            message.truncate(len);
            Ok(message)
        }
        (status, _) => Err(Error::of(status)),
    }
}

/// The message of an UPDATE in its one written form (RFC 4271, section 4.3): at most [`MESSAGE`]
/// octets.
///
/// `body` is the body of that UPDATE in any valid form, without the header: its attributes may
/// be in any order, with lengths of one octet or of two. It is judged as if it had been received
/// in this context.
///
/// # Errors
///
/// [`Error::TooLong`], [`Error::Refused`] and [`Error::Memory`].
pub fn encode(context: &Context, body: &[u8]) -> Result<Vec<u8>, Error> {
    written(|message| raw::encode(&context.said(), body, message))
}

/// The same for a speaker with 2-octet AS numbers (RFC 6793, section 4.2.2): 23456 replaces
/// each number that needs four octets, and AS4_PATH and AS4_AGGREGATOR are added to AS_PATH and
/// AGGREGATOR where one does.
///
/// `body` has 4-octet AS numbers, whatever `as4` of the context says.
///
/// # Errors
///
/// Those of [`encode`]; [`Error::Unwritable`] where the message would have more than [`MESSAGE`]
/// octets with AS4_PATH and AS4_AGGREGATOR.
pub fn narrow(context: &Context, body: &[u8]) -> Result<Vec<u8>, Error> {
    written(|message| raw::narrow(&context.said(), body, message))
}

/// The UPDATE of a session with 2-octet AS numbers as 4-octet speakers see it (RFC 6793, section
/// 4.2.3): the path and the aggregator that AS4_PATH and AS4_AGGREGATOR give replace all four
/// attributes.
///
/// `body` has 2-octet AS numbers, whatever `as4` of the context says, and the message has
/// 4-octet ones.
///
/// # Errors
///
/// Those of [`encode`], and [`Error::Unwritable`].
pub fn reconcile(context: &Context, body: &[u8]) -> Result<Vec<u8>, Error> {
    written(|message| raw::reconcile(&context.said(), body, message))
}
