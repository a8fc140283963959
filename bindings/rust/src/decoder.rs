use crate::message::told;
use crate::{raw, Context, Error, Message, MessageIn, Terms, MESSAGE};
use std::fmt;

/// Reads the messages of a stream whose octets arrive in pieces, however it is cut (RFC 4271,
/// section 4.1).
///
/// It holds at most one message. What it gives is what [`messages`](crate::messages) gives of the
/// whole stream, and after a [reset](crate::Outcome::Reset) it reads nothing. It moves between
/// threads, but isn't shared by them.
///
/// ```
/// use ristulva::{Context, Decoder, Outcome};
///
/// let keepalive = [[0xff; 16].as_slice(), &[0, 19, 4]].concat();
/// let stream = keepalive.repeat(3);
/// let mut decoder = Decoder::new(&Context::default())?;
/// let mut count = 0;
/// for mut piece in stream.chunks(10) {
///     while let Some(message) = decoder.pull(&mut piece) {
///         assert_eq!(message.outcome(), &Outcome::Keepalive);
///         assert_eq!(message.offset(), count * 19);
///         count += 1;
///     }
/// }
/// assert_eq!((count, decoder.held()), (3, 0));
/// # Ok::<(), ristulva::Error>(())
/// ```
///
/// ```compile_fail,E0277
/// fn is_shared<T: Sync>() {}
/// is_shared::<ristulva::Decoder>();
/// ```
pub struct Decoder {
    decoder: raw::Decoder,
    context: Context,
    /// The buffers of the pulled message, and of the data of a NOTIFICATION.
    message: Box<raw::Room>,
    data: Box<raw::Data>,
    offset: u64,
}

impl Decoder {
    /// A decoder at the beginning of a stream, in the context of its session.
    ///
    /// # Errors
    ///
    /// [`Error::Memory`].
    pub fn new(context: &Context) -> Result<Decoder, Error> {
        Ok(Decoder {
            decoder: raw::Decoder::new(&context.said()).map_err(Error::of)?,
            context: *context,
            message: Box::new([0; MESSAGE]),
            data: Box::new([0; raw::DATA]),
            offset: 0,
        })
    }

    /// The next message that is whole with octets of the piece, after those that are held. What is
    /// consumed is removed from the beginning of the piece.
    ///
    /// `None` where all of the piece was consumed, and the message needs more; or after a reset,
    /// where nothing is consumed.
    ///
    /// The message borrows the decoder, until the next call.
    pub fn pull(&mut self, piece: &mut &[u8]) -> Option<Message<'_>> {
        let (taken, verdict) = self.decoder.pull(piece, &mut self.message, &mut self.data);
        *piece = &piece[taken..];
        let verdict = verdict?;
        let offset = self.offset;
        self.offset += u64::from(verdict.len);
        let octets = &self.message[..told(&verdict)];
        Some(Message::of(&self.context, octets, &verdict).at(offset))
    }

    /// The octets of an incomplete message that it holds. Where a stream ends, 0 means that it
    /// ends after a message, or after a reset.
    pub fn held(&self) -> usize {
        self.decoder.held()
    }
}

impl fmt::Debug for Decoder {
    fn fmt(&self, f: &mut fmt::Formatter<'_>) -> fmt::Result {
        f.debug_struct("Decoder")
            .field("context", &self.context)
            .field("held", &self.held())
            .finish_non_exhaustive()
    }
}

/// Reads the messages of a stream by terms, whose octets arrive in pieces, as a [`Decoder`] does in a
/// context.
///
/// What it gives is what [`messages_in`](crate::messages_in) gives of the whole stream, and after a
/// message by which the session [ends](MessageIn::is_reset) it reads nothing.
///
/// ```
/// use ristulva::{encode_refresh, DecoderIn, MessageIn, Refreshes, Subtype, Terms};
///
/// let terms = Terms { refresh: Refreshes::Plain, ..Terms::default() };
/// let stream = encode_refresh(2, 1, Subtype::Request).repeat(3);
/// let mut decoder = DecoderIn::new(&terms)?;
/// let mut count = 0;
/// for mut piece in stream.chunks(10) {
///     while let Some(message) = decoder.pull(&mut piece) {
///         assert!(matches!(message, MessageIn::Refresh(_)));
///         assert_eq!(message.offset(), count * 23);
///         count += 1;
///     }
/// }
/// assert_eq!((count, decoder.held()), (3, 0));
/// # Ok::<(), ristulva::Error>(())
/// ```
///
/// ```compile_fail,E0277
/// fn is_shared<T: Sync>() {}
/// is_shared::<ristulva::DecoderIn>();
/// ```
pub struct DecoderIn {
    stream: raw::Stream,
    terms: Terms,
    /// The buffers of the pulled message, and of the data of a NOTIFICATION.
    message: Box<raw::Room>,
    data: Box<raw::Data>,
    offset: u64,
}

impl DecoderIn {
    /// A decoder at the beginning of a stream, by the terms of its direction.
    ///
    /// # Errors
    ///
    /// [`Error::Memory`] or [`Error::Paths`].
    pub fn new(terms: &Terms) -> Result<DecoderIn, Error> {
        let stream = raw::Stream::new(&terms.said()).map_err(|status| match status {
            raw::RANGE => Error::Paths,
            other => Error::of(other),
        })?;
        Ok(DecoderIn {
            stream,
            terms: *terms,
            message: Box::new([0; MESSAGE]),
            data: Box::new([0; raw::DATA]),
            offset: 0,
        })
    }

    /// The next message that is whole with octets of the piece, as [`Decoder::pull`] gives it.
    pub fn pull(&mut self, piece: &mut &[u8]) -> Option<MessageIn<'_>> {
        let (taken, verdict) = self.stream.pull(piece, &mut self.message, &mut self.data);
        *piece = &piece[taken..];
        let verdict = verdict?;
        let offset = self.offset;
        self.offset += u64::from(verdict.len);
        let octets = &self.message[..told(&verdict)];
        Some(MessageIn::of(&self.terms, octets, &verdict).at(offset))
    }

    /// The octets of an incomplete message that it holds. Where a stream ends, 0 means that it
    /// ends after a message, or after a reset.
    pub fn held(&self) -> usize {
        self.stream.held()
    }
}

impl fmt::Debug for DecoderIn {
    fn fmt(&self, f: &mut fmt::Formatter<'_>) -> fmt::Result {
        f.debug_struct("DecoderIn")
            .field("terms", &self.terms)
            .field("held", &self.held())
            .finish_non_exhaustive()
    }
}
