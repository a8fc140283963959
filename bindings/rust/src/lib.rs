//! BGP-4 messages (RFC 4271), read and judged (RFC 7606), and sessions, by proved code.
//!
//! This is the library for C with types that a Rust programmer expects. Its archive,
//! `libristulva.a`, lies in this package's folder `native`, or in the one that `RISTULVA_DIST` names.
//!
//! It reads one direction of a session as octets, by [`messages`], or by a [`Decoder`] where they come
//! in pieces, or holds one end of it, by a [`Session`]. What it gives borrows the caller's octets:
//! only a decoder's messages, the data of a [`Outcome::Reset`], lines of text and messages that are
//! written are copied.
//!
//! By the [`Terms`] that [`terms_of`] finds in two OPENs a ROUTE-REFRESH is a message too: see
//! [`messages_in`] and [`DecoderIn`]. Where routes have path identifiers, [`judge_paths`] reads a
//! message.
//!
//! ```
//! use ristulva::{Context, Outcome};
//!
//! // 10.0.0.0/8 by way of AS 65000, and of 192.0.2.1.
//! let body = [
//!     &[0, 0, 0, 20][..],
//!     &[0x40, 1, 1, 0, 0x40, 2, 6, 2, 1, 0, 0, 0xfd, 0xe8, 0x40, 3, 4, 192, 0, 2, 1],
//!     &[8, 10],
//! ]
//! .concat();
//! let context = Context { as4: true, ..Context::default() };
//! let octets = ristulva::encode(&context, &body)?;
//! for message in ristulva::messages(&context, &octets) {
//!     if let Outcome::Update(update) = message.outcome() {
//!         for prefix in update.nlri() {
//!             assert_eq!(prefix.to_string(), "10.0.0.0/8");
//!         }
//!     }
//! }
//! # Ok::<(), ristulva::Error>(())
//! ```

#![deny(unsafe_code, missing_docs)]

mod action;
mod agree;
mod attribute;
mod cleaned;
mod config;
mod context;
mod decoder;
mod error;
mod facts;
mod field;
mod front;
mod layout;
mod message;
mod note;
pub mod numbers;
mod open;
mod path;
mod paths;
mod prefix;
#[allow(unsafe_code)]
mod raw;
mod refresh;
mod route;
mod rows;
mod session;
mod terms;
mod update;
mod write;

pub use action::{Action, Actions, Timer};
pub use agree::{agree, directions, Agreed};
pub use attribute::{Attribute, Attributes};
pub use cleaned::{Cleaned, End, HandedOn};
pub use config::Config;
pub use context::Context;
pub use decoder::{Decoder, DecoderIn};
pub use error::Error;
pub use facts::{Facts, Origin};
pub use field::{Field, FieldKind, Group};
pub use front::{front, Front, Kind, KindIn};
pub use message::{judge, messages, Message, Messages, Outcome};
pub use note::{Note, Notes, Why};
pub use open::{Capabilities, Capability, Open};
pub use path::{Numbers, Segment, SegmentKind, Segments};
pub use paths::{
    judge_paths, paths, without_paths, MessagePaths, UpdateOutcome, UpdatePaths, PATHS,
};
pub use prefix::{NextHop, Prefix, Prefixes, Shown};
pub use refresh::{
    encode_refresh, front_in, judge_in, messages_in, MessageIn, MessagesIn, Refresh,
    RefreshOutcome, RouteRefresh, Subtype, REFRESH_MESSAGE,
};
pub use route::{Route, Routes};
pub use rows::{
    read_rows, write_rows, CommunityRow, LargeCommunityRow, NumberRow, RouteRow, Row, Stop,
    Written, ROWS,
};
pub use session::{Event, Heard, Peer, Session, State};
pub use terms::{terms_of, AgreedTerms, Refreshes, Terms};
pub use update::Update;
pub use write::{encode, narrow, reconcile};

/// The most octets of a message, its header of 19 included (RFC 4271, section 4.1).
pub const MESSAGE: usize = 4096;

/// The most octets of the messages that [`Message::clean`] gives for one: three of them.
pub const PARTS: usize = 12288;

/// The most octets of a message's body.
pub const BODY: usize = 4077;

/// The version of the library that is linked: 1000000 times the first number, 1000 times the
/// second, and the third.
pub fn version() -> u32 {
    raw::version()
}
