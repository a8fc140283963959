use crate::{raw, Context, Error, Prefix, Route};

pub use crate::raw::{CommunityRow, LargeCommunityRow, NumberRow, RouteRow};

/// The least room for rows: the most that one message gives.
pub const ROWS: usize = raw::BATCH;

/// What a stream says, a row each: [`RouteRow`], [`NumberRow`], [`CommunityRow`] and
/// [`LargeCommunityRow`].
pub trait Row: raw::IsWritten {
    /// The offset at which its message begins, in the octets that were read.
    fn message(&self) -> u64;
}

impl<R: raw::IsWritten> Row for R {
    fn message(&self) -> u64 {
        let mut row = *self;
        *row.message_mut()
    }
}

/// Why no more is read of a stream.
#[derive(Clone, Copy, Debug, PartialEq, Eq, Hash)]
pub enum Stop {
    /// It ends inside a message.
    Incomplete,
    /// A message, or a header with a fault, resets the session (RFC 4271, section 6).
    Reset,
}

/// The result of writing rows.
#[derive(Clone, Copy, Debug, PartialEq, Eq, Hash)]
pub struct Written {
    /// The number of rows.
    pub rows: usize,
    /// The total length of the messages that were read, also those without a row.
    pub octets: usize,
    /// Why nothing can be read after them; `None` where they are all octets, or the rows of the
    /// next message didn't fit.
    pub stop: Option<Stop>,
}

/// Writes what a stream says to the beginning of `rows`, message by message: for as many whole
/// messages as fit. Nothing is allocated, and the rest of `rows` is unchanged.
///
/// Routes of a family that isn't in use aren't given: see [`Routes::loses_ip6`](crate::Routes).
///
/// ```
/// use ristulva::{write_rows, Context, RouteRow, ROWS};
///
/// // 10.0.0.0/8 is withdrawn.
/// let octets = [&[0xff; 16][..], &[0, 25, 2, 0, 2, 8, 10, 0, 0]].concat();
/// let mut rows = vec![RouteRow::default(); ROWS];
/// let written = write_rows(&Context::default(), &octets, &mut rows)?;
/// assert_eq!((written.rows, written.octets, written.stop), (1, 25, None));
/// assert_eq!(rows[0].route().to_string(), "withdraw 10.0.0.0/8");
/// # Ok::<(), ristulva::Error>(())
/// ```
///
/// # Errors
///
/// [`Error::Room`]: there are less than [`ROWS`] rows, and nothing is written.
pub fn write_rows<R: Row>(
    context: &Context,
    octets: &[u8],
    rows: &mut [R],
) -> Result<Written, Error> {
    let (status, rows, octets) = raw::write_rows(&context.said(), octets, rows);
    let stop = match status {
        raw::OK => None,
        raw::INCOMPLETE => Some(Stop::Incomplete),
        raw::REFUSED => Some(Stop::Reset),
        _ => return Err(Error::of(status)),
    };
    Ok(Written { rows, octets, stop })
}

/// All rows of a stream, up to what stops it.
///
/// ```
/// use ristulva::{read_rows, CommunityRow, Context, RouteRow};
///
/// # let octets: [u8; 0] = [];
/// let context = Context { as4: true, ..Context::default() };
/// let (routes, read) = read_rows::<RouteRow>(&context, &octets);
/// let (communities, _) = read_rows::<CommunityRow>(&context, &octets[..read.octets]);
/// # assert!(routes.is_empty() && communities.is_empty());
/// ```
pub fn read_rows<R: Row>(context: &Context, octets: &[u8]) -> (Vec<R>, Written) {
    let mut rows = Vec::new();
    let mut read = Written {
        rows: 0,
        octets: 0,
        stop: None,
    };
    while read.octets < octets.len() && read.stop.is_none() {
        rows.resize(read.rows + read.rows.max(4 * ROWS), R::default());
        let written = write_rows(context, &octets[read.octets..], &mut rows[read.rows..])
            .expect("there is room");
        for row in &mut rows[read.rows..][..written.rows] {
            *row.message_mut() += read.octets as u64;
        }
        read.rows += written.rows;
        read.octets += written.octets;
        read.stop = written.stop;
    }
    rows.truncate(read.rows);
    (rows, read)
}

impl RouteRow {
    /// What its message says of the prefix, as [`Message::routes`](crate::Message::routes) gives it.
    pub fn route(&self) -> Route {
        Route {
            prefix: Prefix::of(self.prefix),
            announced: self.announced != 0,
        }
    }

    /// Whether its UPDATE is treated as a withdrawal (RFC 7606, section 2).
    pub fn is_treated_as_withdrawal(&self) -> bool {
        self.verdict == raw::WITHDRAW
    }

    /// Its origin AS, where it is announced: see [`Facts`](crate::Facts).
    pub fn origin_as(&self) -> Option<u32> {
        (self.has_origin_as != 0).then_some(self.origin_as)
    }

    /// The value of AS_PATH, of its message's octets; empty for what is withdrawn. Likewise the
    /// three others.
    ///
    /// # Panics
    ///
    /// The octets are less than its message.
    pub fn as_path<'a>(&self, message: &'a [u8]) -> &'a [u8] {
        self.as_path.of(message)
    }

    /// The value of AS4_PATH; empty where that is discarded.
    pub fn as4_path<'a>(&self, message: &'a [u8]) -> &'a [u8] {
        self.as4_path.of(message)
    }

    /// The value of COMMUNITIES; empty where that is discarded.
    pub fn communities<'a>(&self, message: &'a [u8]) -> &'a [u8] {
        self.communities.of(message)
    }

    /// The value of LARGE_COMMUNITY; empty where that is discarded.
    pub fn large_communities<'a>(&self, message: &'a [u8]) -> &'a [u8] {
        self.large_communities.of(message)
    }
}

impl NumberRow {
    /// The AS number.
    pub fn number(&self) -> u32 {
        self.number
    }

    /// The index of its segment in the path, from 0.
    pub fn segment(&self) -> u16 {
        self.segment
    }

    /// Whether that is an AS_SET.
    pub fn is_in_set(&self) -> bool {
        self.set != 0
    }
}

impl CommunityRow {
    /// The community.
    pub fn value(&self) -> u32 {
        self.value
    }
}

impl LargeCommunityRow {
    /// Its Global Administrator, and the two parts of its Local Data.
    pub fn numbers(&self) -> [u32; 3] {
        self.numbers
    }
}
