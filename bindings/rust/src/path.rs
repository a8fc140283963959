use crate::raw;
use std::iter::FusedIterator;

/// The type of a segment of a path.
#[derive(Clone, Copy, Debug, PartialEq, Eq, Hash)]
pub enum SegmentKind {
    /// AS_SET, type 1: its ASes in no order (RFC 4271, section 4.3).
    Set,
    /// AS_SEQUENCE, type 2: its ASes in order, the nearest first.
    Sequence,
    /// AS_CONFED_SEQUENCE, type 3 (RFC 5065, section 3).
    ConfedSequence,
    /// AS_CONFED_SET, type 4.
    ConfedSet,
}

impl SegmentKind {
    fn of(number: u8) -> SegmentKind {
        match number {
            1 => SegmentKind::Set,
            2 => SegmentKind::Sequence,
            3 => SegmentKind::ConfedSequence,
            4 => SegmentKind::ConfedSet,
            _ => unreachable!("segment type {number}"),
        }
    }
}

/// A segment of a path (RFC 4271, section 4.3).
#[derive(Clone, Debug)]
pub struct Segment<'a> {
    /// Its type.
    pub kind: SegmentKind,
    numbers: Numbers<'a>,
}

impl<'a> Segment<'a> {
    /// Its AS numbers: 1 to 255.
    pub fn numbers(&self) -> Numbers<'a> {
        self.numbers.clone()
    }
}

/// The segments of a path, the nearest first, up to its end or to the first fault.
#[derive(Clone, Debug)]
pub struct Segments<'a> {
    octets: &'a [u8],
    cursor: raw::Segments,
}

impl<'a> Segments<'a> {
    /// Those of a path's value: whether AS numbers have four octets, and whether segments of
    /// confederations are read.
    pub(crate) fn new(value: &'a [u8], wide: bool, confederations: bool) -> Segments<'a> {
        let cursor = raw::Segments {
            at: 0,
            end: value.len() as u32,
            wide: wide.into(),
            confederations: confederations.into(),
        };
        Segments {
            octets: value,
            cursor,
        }
    }
}

impl<'a> Iterator for Segments<'a> {
    type Item = Segment<'a>;

    fn next(&mut self) -> Option<Segment<'a>> {
        let found = raw::next_segment(self.octets, &mut self.cursor)?;
        let width = if self.cursor.wide == 0 { 2 } else { 4 };
        Some(Segment {
            kind: SegmentKind::of(found.kind),
            numbers: Numbers::new(found.numbers.of(self.octets), width),
        })
    }
}

impl FusedIterator for Segments<'_> {}

/// The numbers of a field.
#[derive(Clone, Debug)]
pub struct Numbers<'a> {
    octets: &'a [u8],
    cursor: raw::Numbers,
}

impl<'a> Numbers<'a> {
    /// Those of a field of numbers that have `width` octets each: 2 or 4.
    pub(crate) fn new(field: &'a [u8], width: u8) -> Numbers<'a> {
        let cursor = raw::Numbers {
            at: 0,
            end: field.len() as u32,
            width,
        };
        Numbers {
            octets: field,
            cursor,
        }
    }
}

impl Iterator for Numbers<'_> {
    type Item = u32;

    fn next(&mut self) -> Option<u32> {
        raw::next_number(self.octets, &mut self.cursor)
    }

    fn size_hint(&self) -> (usize, Option<usize>) {
        let left = (self.cursor.end - self.cursor.at) as usize / usize::from(self.cursor.width);
        (left, Some(left))
    }
}

impl ExactSizeIterator for Numbers<'_> {}

impl FusedIterator for Numbers<'_> {}
