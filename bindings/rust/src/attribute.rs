use crate::raw;
use std::iter::FusedIterator;

/// A path attribute as it lies in its field (RFC 4271, section 4.3).
#[derive(Clone, Copy, Debug, PartialEq, Eq, Hash)]
pub struct Attribute<'a> {
    /// The offset of its flags in the message.
    pub at: usize,
    /// Its flags: 128 optional, 64 transitive, 32 partial, 16 extended length.
    pub flags: u8,
    /// Its type.
    pub kind: u8,
    /// Its value.
    pub value: &'a [u8],
}

impl Attribute<'_> {
    /// Whether it is optional: not each speaker knows its type.
    pub fn is_optional(&self) -> bool {
        self.flags & 128 != 0
    }

    /// Whether it is passed on by a speaker that doesn't know its type.
    pub fn is_transitive(&self) -> bool {
        self.flags & 64 != 0
    }

    /// Whether a speaker that doesn't know its type has passed it on.
    pub fn is_partial(&self) -> bool {
        self.flags & 32 != 0
    }
}

/// The attributes of an UPDATE, up to the end of their field or to one that is cut off.
#[derive(Clone, Debug)]
pub struct Attributes<'a> {
    octets: &'a [u8],
    cursor: raw::Attributes,
}

impl<'a> Attributes<'a> {
    pub(crate) fn new(octets: &'a [u8], field: raw::Span) -> Attributes<'a> {
        let cursor = raw::Attributes {
            at: field.at,
            end: field.at + field.len,
        };
        Attributes { octets, cursor }
    }
}

impl<'a> Iterator for Attributes<'a> {
    type Item = Attribute<'a>;

    fn next(&mut self) -> Option<Attribute<'a>> {
        let found = raw::next_attribute(self.octets, &mut self.cursor)?;
        Some(Attribute {
            at: found.at as usize,
            flags: found.flags,
            kind: found.kind,
            value: found.value.of(self.octets),
        })
    }
}

impl FusedIterator for Attributes<'_> {}
