use crate::{raw, Context};
use std::fmt;
use std::iter::FusedIterator;
use std::marker::PhantomData;
use std::vec;

/// What is wrong with an attribute (RFC 7606). It is printed by its name.
#[derive(Clone, Copy, Debug, PartialEq, Eq, Hash)]
pub enum Why {
    /// The Optional or the Transitive bit isn't that of the type.
    Flags,
    /// The value isn't as long as its type asks.
    Length,
    /// The value has no meaning.
    Value,
    /// A segment of a path has an unknown type.
    SegmentType,
    /// A segment of a path has no numbers.
    SegmentCount,
    /// A segment of a path goes past the end of the value.
    SegmentEnd,
    /// An attribute of the type precedes it.
    Repeated,
    /// LOCAL_PREF on an external session.
    External,
    /// AS4_PATH or AS4_AGGREGATOR on a session with AS numbers of four octets.
    FourOctet,
    /// Routes of an address family that isn't in use.
    Family,
    /// NEXT_HOP without NLRI that it could serve.
    Unneeded,
    /// An AS4_PATH of which nothing remains.
    Emptied,
    /// The attribute goes past the end of the attributes.
    Cut,
    /// No attribute of the type is present.
    Missing,
    /// An AS number 0 (RFC 7607).
    AsZero,
}

/// The reasons by their numbers, from 1 on.
const WHYS: [Why; 15] = [
    Why::Flags,
    Why::Length,
    Why::Value,
    Why::SegmentType,
    Why::SegmentCount,
    Why::SegmentEnd,
    Why::Repeated,
    Why::External,
    Why::FourOctet,
    Why::Family,
    Why::Unneeded,
    Why::Emptied,
    Why::Cut,
    Why::Missing,
    Why::AsZero,
];

impl fmt::Display for Why {
    fn fmt(&self, f: &mut fmt::Formatter<'_>) -> fmt::Result {
        fmt::Debug::fmt(self, f)
    }
}

/// An attribute that is discarded, or for which its UPDATE is treated as a withdrawal (RFC 7606,
/// section 6).
#[derive(Clone, Copy, Debug, PartialEq, Eq, Hash)]
pub struct Note {
    /// The offset of the attribute's flags in the message; `None` where it is missing.
    pub at: Option<usize>,
    /// Its type; 0 for one that is cut off before its type.
    pub kind: u8,
    /// What is wrong with it.
    pub why: Why,
}

impl Note {
    /// The section of an RFC that requires it, as `bgp explain` prints it.
    pub fn section(&self) -> String {
        let why = WHYS.iter().position(|it| *it == self.why).map_or(0, |at| at as u8 + 1);
        raw::note_section(&raw::Note {
            at: self.at.map_or(0, |at| at as u32),
            kind: self.kind,
            why,
        })
    }
}

/// The notes on an UPDATE: the attributes by their offsets, the one that is cut off, and then what
/// is missing.
///
/// The message was judged once for all of them.
#[derive(Clone, Debug)]
pub struct Notes<'a> {
    left: vec::IntoIter<raw::Note>,
    octets: PhantomData<&'a [u8]>,
}

impl<'a> Notes<'a> {
    pub(crate) fn new(octets: &'a [u8], context: Context) -> Notes<'a> {
        Notes {
            left: raw::notes(&context.said(), octets).into_iter(),
            octets: PhantomData,
        }
    }
}

impl Iterator for Notes<'_> {
    type Item = Note;

    fn next(&mut self) -> Option<Note> {
        let found = self.left.next()?;
        Some(Note {
            at: (found.at != 0).then_some(found.at as usize),
            kind: found.kind,
            why: WHYS[usize::from(found.why) - 1],
        })
    }

    fn size_hint(&self) -> (usize, Option<usize>) {
        self.left.size_hint()
    }
}

impl ExactSizeIterator for Notes<'_> {}

impl FusedIterator for Notes<'_> {}
