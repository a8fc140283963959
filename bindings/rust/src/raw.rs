//! The calls of `ristulva.h`, and each as a safe function: the only file with `unsafe`.
//!
//! What makes them safe is the same everywhere. A slice's pointer isn't null, also where the slice
//! is empty, and its length goes with it. What a call writes is a `&mut`, so it overlaps
//! nothing else. No call keeps a pointer, and for any octets, cursor and span it reads nothing
//! outside of what it is given. The comments of the calls on a [`Decoder`], a [`Stream`] and a
//! [`Session`] say the rest.

pub use crate::layout::*;
use std::cell::UnsafeCell;
use std::os::raw::c_char;
use std::ptr;

/// The statuses that calls answer.
pub const OK: u32 = 0;
pub const MEMORY: u32 = 2;
pub const RANGE: u32 = 3;
pub const INCOMPLETE: u32 = 4;
pub const ROOM: u32 = 5;
pub const REFUSED: u32 = 7;
pub const UNWRITABLE: u32 = 8;
pub const STATE: u32 = 9;
pub const CONFIG: u32 = 10;
pub const MIXED: u32 = 12;

/// The least room for rows: the most that one message gives.
pub const BATCH: usize = 4073;

/// The values of [`Found`].
pub const MORE: u8 = 0;
pub const FOUND: u8 = 1;

/// The type of a ROUTE-REFRESH, and the octets of one that is written.
pub const ROUTE_REFRESH: u8 = 5;
pub const REFRESH_MESSAGE: usize = 23;

/// The verdicts.
pub const OPEN: u8 = 1;
pub const UPDATE: u8 = 2;
pub const NOTIFICATION: u8 = 3;
pub const KEEPALIVE: u8 = 4;
pub const WITHDRAW: u8 = 5;
pub const RESET: u8 = 6;

// The most octets of the name of a kind of field.
pub const FIELD_NAME: usize = 38;

/// The results of cleaning a message.
pub const HANDED_ON: u8 = 0;
pub const ENDS_RESET: u8 = 1;
pub const ENDS_LATE_OPEN: u8 = 2;
pub const ENDS_NO_FAMILY: u8 = 3;

/// What a session asks for.
pub const DO_SEEK: u8 = 1;
pub const DO_CLOSE: u8 = 2;
pub const DO_SEND_OPEN: u8 = 3;
pub const DO_SEND_KEEPALIVE: u8 = 4;
pub const DO_SEND_NOTIFICATION: u8 = 5;
pub const DO_ARM: u8 = 6;
pub const DO_DISARM: u8 = 7;
pub const DO_ANNOUNCE: u8 = 8;
pub const DO_WITHDRAW: u8 = 9;
pub const DO_FLUSH: u8 = 10;

/// The address family of IPv4.
pub const AFI_IP4: u16 = 1;

/// `ristulva_decoder`, `ristulva_stream` and `ristulva_session`: where the memory of one is, which is
/// the library's; null where there is none.
#[repr(C)]
struct Handle {
    body: *mut u8,
}

#[rustfmt::skip]
extern "C" {
    fn ristulva_version() -> u32;
    fn ristulva_front(octets: *const u8, len: usize, out: *mut Found) -> u32;
    fn ristulva_judge(context: *const Context, octets: *const u8, len: usize, data: *mut u8, room: usize, out: *mut Verdict) -> u32;
    fn ristulva_notes(context: *const Context, octets: *const u8, len: usize, notes: *mut Note, room: usize, count: *mut usize) -> u32;
    fn ristulva_facts(context: *const Context, octets: *const u8, len: usize, out: *mut Facts) -> u32;
    fn ristulva_name(kind: u8, number: u8, subcode: u8, text: *mut c_char, room: usize, written: *mut usize) -> u32;
    fn ristulva_fields(context: *const Context, octets: *const u8, len: usize, fields: *mut Field, room: usize, written: *mut usize) -> u32;
    fn ristulva_fault(context: *const Context, octets: *const u8, len: usize, out: *mut Span) -> u32;
    fn ristulva_fault_section(
        context: *const Context,
        octets: *const u8,
        len: usize,
        text: *mut c_char,
        room: usize,
        written: *mut usize,
    ) -> u32;
    fn ristulva_note_section(note: *const Note, text: *mut c_char, room: usize, written: *mut usize) -> u32;
    fn ristulva_field_name(kind: u32, name: *mut c_char, room: usize, written: *mut usize) -> u32;
    fn ristulva_text(context: *const Context, place: u64, octets: *const u8, len: usize, text: *mut c_char, room: usize, written: *mut usize) -> u32;
    fn ristulva_encode(context: *const Context, body: *const u8, len: usize, message: *mut u8, room: usize, written: *mut usize) -> u32;
    fn ristulva_narrow(context: *const Context, body: *const u8, len: usize, message: *mut u8, room: usize, written: *mut usize) -> u32;
    fn ristulva_reconcile(context: *const Context, body: *const u8, len: usize, message: *mut u8, room: usize, written: *mut usize) -> u32;
    fn ristulva_clean(context: *const Context, types: *const u8, count: usize, first: u8, octets: *const u8, len: usize, message: *mut u8, room: usize, written: *mut usize, out: *mut Cleaned) -> u32;
    fn ristulva_next_attribute(octets: *const u8, len: usize, cursor: *mut Attributes, out: *mut Attribute) -> u32;
    fn ristulva_next_prefix(octets: *const u8, len: usize, cursor: *mut Prefixes, out: *mut Prefix) -> u32;
    fn ristulva_count_prefixes(octets: *const u8, len: usize, cursor: *const Prefixes, count: *mut usize) -> u32;
    fn ristulva_begin_routes(context: *const Context, octets: *const u8, len: usize, cursor: *mut RouteCursor) -> u32;
    fn ristulva_next_route(octets: *const u8, len: usize, cursor: *mut RouteCursor, out: *mut Route) -> u32;
    fn ristulva_routes(context: *const Context, octets: *const u8, len: usize, rows: *mut RouteRow, room: usize, written: *mut usize, taken: *mut usize) -> u32;
    fn ristulva_path_numbers(context: *const Context, octets: *const u8, len: usize, rows: *mut NumberRow, room: usize, written: *mut usize, taken: *mut usize) -> u32;
    fn ristulva_communities_of(context: *const Context, octets: *const u8, len: usize, rows: *mut CommunityRow, room: usize, written: *mut usize, taken: *mut usize) -> u32;
    fn ristulva_large_communities_of(context: *const Context, octets: *const u8, len: usize, rows: *mut LargeCommunityRow, room: usize, written: *mut usize, taken: *mut usize) -> u32;
    fn ristulva_next_segment(octets: *const u8, len: usize, cursor: *mut Segments, out: *mut Segment) -> u32;
    fn ristulva_next_number(octets: *const u8, len: usize, cursor: *mut Numbers, out: *mut u32) -> u32;
    fn ristulva_next_large_community(octets: *const u8, len: usize, cursor: *mut LargeCommunities, out: *mut LargeCommunity) -> u32;
    fn ristulva_reached(octets: *const u8, len: usize, value: *const Span, next_hop: *mut Span, cursor: *mut Prefixes) -> u32;
    fn ristulva_unreached(octets: *const u8, len: usize, value: *const Span, cursor: *mut Prefixes) -> u32;
    fn ristulva_open(octets: *const u8, len: usize, out: *mut OpenFields) -> u32;
    fn ristulva_next_capability(octets: *const u8, len: usize, cursor: *mut Capabilities, out: *mut Capability) -> u32;
    fn ristulva_agree(ours: *const u8, ours_len: usize, theirs: *const u8, theirs_len: usize, context: *mut Context, hold: *mut u16) -> u32;
    fn ristulva_terms_of(reader: *const u8, reader_len: usize, sender: *const u8, sender_len: usize, terms: *mut Terms, hold: *mut u16) -> u32;
    fn ristulva_front_in(terms: *const Terms, octets: *const u8, len: usize, out: *mut Found) -> u32;
    fn ristulva_judge_in(terms: *const Terms, octets: *const u8, len: usize, data: *mut u8, room: usize, out: *mut Verdict) -> u32;
    fn ristulva_text_in(terms: *const Terms, place: u64, octets: *const u8, len: usize, text: *mut c_char, room: usize, written: *mut usize) -> u32;
    fn ristulva_refresh_in(terms: *const Terms, octets: *const u8, len: usize, out: *mut Refresh) -> u32;
    fn ristulva_encode_refresh(afi: u16, safi: u8, subtype: u8, message: *mut u8, room: usize, written: *mut usize) -> u32;
    fn ristulva_judge_paths(terms: *const Terms, octets: *const u8, len: usize, data: *mut u8, room: usize, out: *mut Verdict) -> u32;
    fn ristulva_without_paths(terms: *const Terms, octets: *const u8, len: usize, message: *mut u8, room: usize, written: *mut usize) -> u32;
    fn ristulva_paths(terms: *const Terms, octets: *const u8, len: usize, paths: *mut u32, room: usize, written: *mut usize) -> u32;
    fn ristulva_decoder_new(context: *const Context, decoder: *mut Handle) -> u32;
    fn ristulva_decoder_free(decoder: *mut Handle) -> u32;
    fn ristulva_decoder_pull(decoder: *mut Handle, octets: *const u8, len: usize, message: *mut u8, message_room: usize, data: *mut u8, room: usize, taken: *mut usize, out: *mut Verdict) -> u32;
    fn ristulva_decoder_held(decoder: *mut Handle, held: *mut usize) -> u32;
    fn ristulva_stream_new(terms: *const Terms, stream: *mut Handle) -> u32;
    fn ristulva_stream_free(stream: *mut Handle) -> u32;
    fn ristulva_stream_pull(stream: *mut Handle, octets: *const u8, len: usize, message: *mut u8, message_room: usize, data: *mut u8, room: usize, taken: *mut usize, out: *mut Verdict) -> u32;
    fn ristulva_stream_held(stream: *mut Handle, held: *mut usize) -> u32;
    fn ristulva_session_new(config: *const Config, session: *mut Handle) -> u32;
    fn ristulva_session_free(session: *mut Handle) -> u32;
    fn ristulva_session_state(session: *mut Handle, state: *mut u8) -> u32;
    fn ristulva_session_event(session: *mut Handle, event: u32, actions: *mut Actions, message: *mut u8, room: usize, written: *mut usize) -> u32;
    fn ristulva_session_hear(session: *mut Handle, octets: *const u8, len: usize, heard: *mut Heard, actions: *mut Actions, message: *mut u8, room: usize, written: *mut usize) -> u32;
    fn ristulva_session_context(session: *mut Handle, context: *mut Context, hold: *mut u16) -> u32;
    fn ristulva_session_peer(session: *mut Handle, peer: *mut Peer) -> u32;
    fn ristulva_session_codes(session: *mut Handle, codes: *mut u8, room: usize, written: *mut usize) -> u32;
    fn ristulva_session_open(session: *mut Handle, message: *mut u8, room: usize, written: *mut usize) -> u32;
    fn ristulva_session_send(session: *mut Handle, body: *const u8, len: usize, actions: *mut Actions, message: *mut u8, room: usize, written: *mut usize) -> u32;
}

pub fn version() -> u32 {
    // SAFETY: it has no arguments.
    unsafe { ristulva_version() }
}

pub fn front(octets: &[u8]) -> Found {
    let mut out = Found::default();
    // SAFETY: see above. The status is always OK.
    unsafe { ristulva_front(octets.as_ptr(), octets.len(), &mut out) };
    out
}

/// The status, and the verdict, which is none where the octets are incomplete.
pub fn judge(context: &Context, octets: &[u8], data: &mut [u8]) -> (u32, Verdict) {
    let mut out = Verdict::default();
    let (at, len) = (octets.as_ptr(), octets.len());
    // SAFETY: see above.
    let status =
        unsafe { ristulva_judge(context, at, len, data.as_mut_ptr(), data.len(), &mut out) };
    (status, out)
}

/// The notes of the first message; none of octets that are incomplete.
pub fn notes(context: &Context, octets: &[u8]) -> Vec<Note> {
    // Mostly there are fewer.
    let (mut notes, mut count) = (vec![Note::default(); 8], 0);
    loop {
        let (at, len) = (octets.as_ptr(), octets.len());
        let (into, room) = (notes.as_mut_ptr(), notes.len());
        // SAFETY: see above.
        let status = unsafe { ristulva_notes(context, at, len, into, room, &mut count) };
        notes.resize(count, Note::default());
        if status != ROOM {
            return notes;
        }
    }
}

/// The fields of the first message: none of octets that are incomplete.
pub fn fields(context: &Context, octets: &[u8]) -> Vec<Field> {
    // A message has no more than octets.
    let (mut fields, mut written) = (vec![Field::default(); octets.len().min(crate::MESSAGE)], 0);
    let (at, len) = (octets.as_ptr(), octets.len());
    let (into, room) = (fields.as_mut_ptr(), fields.len());
    // SAFETY: see above.
    unsafe { ristulva_fields(context, at, len, into, room, &mut written) };
    fields.truncate(written);
    fields
}

/// The octets for which the first message is a reset: none where it isn't.
pub fn fault(context: &Context, octets: &[u8]) -> Span {
    let mut out = Span::default();
    // SAFETY: see above.
    unsafe { ristulva_fault(context, octets.as_ptr(), octets.len(), &mut out) };
    out
}

/// The most octets of a section.
const SECTION: usize = 27;

/// The section by which the first message is a reset: empty where it isn't.
pub fn fault_section(context: &Context, octets: &[u8]) -> String {
    let (mut text, mut written) = ([0u8; SECTION], 0);
    let (at, len) = (octets.as_ptr(), octets.len());
    // SAFETY: see above.
    unsafe { ristulva_fault_section(context, at, len, text.as_mut_ptr().cast(), SECTION, &mut written) };
    String::from_utf8_lossy(&text[..written]).into_owned()
}

/// The section by which a note is called for.
pub fn note_section(note: &Note) -> String {
    let (mut text, mut written) = ([0u8; SECTION], 0);
    // SAFETY: see above.
    unsafe { ristulva_note_section(note, text.as_mut_ptr().cast(), SECTION, &mut written) };
    String::from_utf8_lossy(&text[..written]).into_owned()
}

/// The length of the name of a kind of field, which is written to the beginning of `name`.
pub fn field_name(kind: u32, name: &mut [u8; FIELD_NAME]) -> usize {
    let mut written = 0;
    // SAFETY: see above.
    unsafe { ristulva_field_name(kind, name.as_mut_ptr().cast(), FIELD_NAME, &mut written) };
    written
}

/// The status, and the length of the lines where that is OK or ROOM.
pub fn text(context: &Context, place: u64, octets: &[u8], text: &mut [u8]) -> (u32, usize) {
    let mut written = 0;
    let (at, len) = (octets.as_ptr(), octets.len());
    let (into, room) = (text.as_mut_ptr().cast(), text.len());
    // SAFETY: see above.
    let status = unsafe { ristulva_text(context, place, at, len, into, room, &mut written) };
    (status, written)
}

/// The status, and the length of the message where that is OK or ROOM.
pub fn encode(context: &Context, body: &[u8], message: &mut [u8]) -> (u32, usize) {
    let mut written = 0;
    let (at, len) = (body.as_ptr(), body.len());
    let (into, room) = (message.as_mut_ptr(), message.len());
    // SAFETY: see above.
    let status = unsafe { ristulva_encode(context, at, len, into, room, &mut written) };
    (status, written)
}

/// As [`encode`].
pub fn narrow(context: &Context, body: &[u8], message: &mut [u8]) -> (u32, usize) {
    let mut written = 0;
    let (at, len) = (body.as_ptr(), body.len());
    let (into, room) = (message.as_mut_ptr(), message.len());
    // SAFETY: see above.
    let status = unsafe { ristulva_narrow(context, at, len, into, room, &mut written) };
    (status, written)
}

/// As [`encode`].
pub fn reconcile(context: &Context, body: &[u8], message: &mut [u8]) -> (u32, usize) {
    let mut written = 0;
    let (at, len) = (body.as_ptr(), body.len());
    let (into, room) = (message.as_mut_ptr(), message.len());
    // SAFETY: see above.
    let status = unsafe { ristulva_reconcile(context, at, len, into, room, &mut written) };
    (status, written)
}

/// The status, the length of the message where that is OK or ROOM, and the result of the octets.
pub fn clean(
    context: &Context,
    types: &[u8],
    first: bool,
    octets: &[u8],
    message: &mut [u8],
) -> (u32, usize, Cleaned) {
    let (mut written, mut out) = (0, Cleaned::default());
    let (set, count) = (types.as_ptr(), types.len());
    let (at, len) = (octets.as_ptr(), octets.len());
    let (into, room) = (message.as_mut_ptr(), message.len());
    let (told, first) = (&mut out, first.into());
    // SAFETY: see above.
    let status = unsafe {
        ristulva_clean(
            context,
            set,
            count,
            first,
            at,
            len,
            into,
            room,
            &mut written,
            told,
        )
    };
    (status, written, out)
}

pub fn next_attribute(octets: &[u8], cursor: &mut Attributes) -> Option<Attribute> {
    let mut out = Attribute::default();
    // SAFETY: see above.
    let status =
        unsafe { ristulva_next_attribute(octets.as_ptr(), octets.len(), cursor, &mut out) };
    (status == OK).then_some(out)
}

pub fn next_prefix(octets: &[u8], cursor: &mut Prefixes) -> Option<Prefix> {
    let mut out = Prefix::default();
    // SAFETY: see above.
    let status = unsafe { ristulva_next_prefix(octets.as_ptr(), octets.len(), cursor, &mut out) };
    (status == OK).then_some(out)
}

/// How many prefixes the cursor still gives: none where it doesn't lie in the octets.
pub fn count_prefixes(octets: &[u8], cursor: &Prefixes) -> usize {
    let mut count = 0;
    // SAFETY: see above.
    unsafe { ristulva_count_prefixes(octets.as_ptr(), octets.len(), cursor, &mut count) };
    count
}

pub fn next_segment(octets: &[u8], cursor: &mut Segments) -> Option<Segment> {
    let mut out = Segment::default();
    // SAFETY: see above.
    let status = unsafe { ristulva_next_segment(octets.as_ptr(), octets.len(), cursor, &mut out) };
    (status == OK).then_some(out)
}

pub fn next_number(octets: &[u8], cursor: &mut Numbers) -> Option<u32> {
    let mut out = 0;
    // SAFETY: see above.
    let status = unsafe { ristulva_next_number(octets.as_ptr(), octets.len(), cursor, &mut out) };
    (status == OK).then_some(out)
}

pub fn next_large_community(
    octets: &[u8],
    cursor: &mut LargeCommunities,
) -> Option<LargeCommunity> {
    let mut out = LargeCommunity::default();
    let (at, len) = (octets.as_ptr(), octets.len());
    // SAFETY: see above.
    let status = unsafe { ristulva_next_large_community(at, len, cursor, &mut out) };
    (status == OK).then_some(out)
}

/// The span of all octets, which are those of a value.
fn whole(value: &[u8]) -> Span {
    Span {
        at: 0,
        len: value.len() as u32,
    }
}

/// Where the next hop of a value of MP_REACH_NLRI lies, and a cursor over its prefixes.
pub fn reached(value: &[u8]) -> Option<(Span, Prefixes)> {
    let (mut hop, mut cursor) = (Span::default(), Prefixes::default());
    let (at, len) = (value.as_ptr(), value.len());
    // SAFETY: see above.
    let status = unsafe { ristulva_reached(at, len, &whole(value), &mut hop, &mut cursor) };
    (status == OK).then_some((hop, cursor))
}

/// A cursor over the prefixes of a value of MP_UNREACH_NLRI.
pub fn unreached(value: &[u8]) -> Option<Prefixes> {
    let mut cursor = Prefixes::default();
    let (at, len) = (value.as_ptr(), value.len());
    // SAFETY: see above.
    let status = unsafe { ristulva_unreached(at, len, &whole(value), &mut cursor) };
    (status == OK).then_some(cursor)
}

/// What an accepted OPEN says; its cursor runs over the same octets.
pub fn open(octets: &[u8]) -> Option<OpenFields> {
    let mut out = OpenFields::default();
    // SAFETY: see above.
    let status = unsafe { ristulva_open(octets.as_ptr(), octets.len(), &mut out) };
    (status == OK).then_some(out)
}

pub fn next_capability(octets: &[u8], cursor: &mut Capabilities) -> Option<Capability> {
    let mut out = Capability::default();
    // SAFETY: see above.
    let status =
        unsafe { ristulva_next_capability(octets.as_ptr(), octets.len(), cursor, &mut out) };
    (status == OK).then_some(out)
}

pub fn facts(context: &Context, octets: &[u8]) -> Option<Facts> {
    let mut out = Facts::default();
    // SAFETY: see above.
    let status = unsafe { ristulva_facts(context, octets.as_ptr(), octets.len(), &mut out) };
    (status == OK).then_some(out)
}

pub fn routes(context: &Context, octets: &[u8]) -> RouteCursor {
    let mut cursor = RouteCursor::default();
    // SAFETY: see above. Of an incomplete message it stays one without routes.
    unsafe { ristulva_begin_routes(context, octets.as_ptr(), octets.len(), &mut cursor) };
    cursor
}

pub fn next_route(octets: &[u8], cursor: &mut RouteCursor) -> Option<Route> {
    let mut out = Route::default();
    // SAFETY: see above.
    let status = unsafe { ristulva_next_route(octets.as_ptr(), octets.len(), cursor, &mut out) };
    (status == OK).then_some(out)
}

/// A call that writes rows.
pub type Writes<Row> = unsafe extern "C" fn(
    *const Context,
    *const u8,
    usize,
    *mut Row,
    usize,
    *mut usize,
    *mut usize,
) -> u32;

/// Rows, and the call that writes them.
pub trait IsWritten: Copy + Default {
    const CALL: Writes<Self>;

    /// Where its message begins.
    fn message_mut(&mut self) -> &mut u64;
}

macro_rules! is_written {
    ($($row:ty: $call:ident,)*) => {$(
        impl IsWritten for $row {
            const CALL: Writes<Self> = $call;

            fn message_mut(&mut self) -> &mut u64 {
                &mut self.message
            }
        }
    )*};
}

is_written! {
    RouteRow: ristulva_routes,
    NumberRow: ristulva_path_numbers,
    CommunityRow: ristulva_communities_of,
    LargeCommunityRow: ristulva_large_communities_of,
}

/// The status, the number of rows written, and of octets consumed.
pub fn write_rows<Row: IsWritten>(
    context: &Context,
    octets: &[u8],
    rows: &mut [Row],
) -> (u32, usize, usize) {
    let (mut written, mut taken) = (0, 0);
    let (at, len) = (octets.as_ptr(), octets.len());
    // SAFETY: see above. It writes no more rows than there are, and each bit pattern is a row.
    let status = unsafe {
        Row::CALL(
            context,
            at,
            len,
            rows.as_mut_ptr(),
            rows.len(),
            &mut written,
            &mut taken,
        )
    };
    (status, written, taken)
}

pub fn agree(ours: &[u8], theirs: &[u8]) -> Option<(Context, u16)> {
    let (mut context, mut hold) = (Context::default(), 0);
    let (one, other) = (ours.as_ptr(), theirs.as_ptr());
    // SAFETY: see above.
    let status = unsafe {
        ristulva_agree(
            one,
            ours.len(),
            other,
            theirs.len(),
            &mut context,
            &mut hold,
        )
    };
    (status == OK).then_some((context, hold))
}

pub fn terms_of(reader: &[u8], sender: &[u8]) -> Option<(Terms, u16)> {
    let (mut terms, mut hold) = (Terms::default(), 0);
    let (one, other) = (reader.as_ptr(), sender.as_ptr());
    // SAFETY: see above.
    let status = unsafe {
        ristulva_terms_of(
            one,
            reader.len(),
            other,
            sender.len(),
            &mut terms,
            &mut hold,
        )
    };
    (status == OK).then_some((terms, hold))
}

/// `None` where the terms are out of their range.
pub fn front_in(terms: &Terms, octets: &[u8]) -> Option<Found> {
    let mut out = Found::default();
    // SAFETY: see above.
    let status = unsafe { ristulva_front_in(terms, octets.as_ptr(), octets.len(), &mut out) };
    (status == OK).then_some(out)
}

/// The status, and the verdict, which is none where the octets are incomplete or the terms are out
/// of their range.
pub fn judge_in(terms: &Terms, octets: &[u8], data: &mut [u8]) -> (u32, Verdict) {
    let mut out = Verdict::default();
    let (at, len) = (octets.as_ptr(), octets.len());
    // SAFETY: see above.
    let status =
        unsafe { ristulva_judge_in(terms, at, len, data.as_mut_ptr(), data.len(), &mut out) };
    (status, out)
}

/// The status, and the length of the lines where that is OK or ROOM.
pub fn text_in(terms: &Terms, place: u64, octets: &[u8], text: &mut [u8]) -> (u32, usize) {
    let mut written = 0;
    let (at, len) = (octets.as_ptr(), octets.len());
    let (into, room) = (text.as_mut_ptr().cast(), text.len());
    // SAFETY: see above.
    let status = unsafe { ristulva_text_in(terms, place, at, len, into, room, &mut written) };
    (status, written)
}

pub fn refresh_in(terms: &Terms, octets: &[u8]) -> Option<Refresh> {
    let mut out = Refresh::default();
    // SAFETY: see above.
    let status = unsafe { ristulva_refresh_in(terms, octets.as_ptr(), octets.len(), &mut out) };
    (status == OK).then_some(out)
}

pub fn encode_refresh(afi: u16, safi: u8, subtype: u8) -> [u8; REFRESH_MESSAGE] {
    let (mut message, mut written) = ([0; REFRESH_MESSAGE], 0);
    let (into, room) = (message.as_mut_ptr(), REFRESH_MESSAGE);
    // SAFETY: see above. There is room for it.
    unsafe { ristulva_encode_refresh(afi, safi, subtype, into, room, &mut written) };
    message
}

/// The status, and the verdict, which is none where the octets are incomplete.
pub fn judge_paths(terms: &Terms, octets: &[u8], data: &mut [u8]) -> (u32, Verdict) {
    let mut out = Verdict::default();
    let (at, len) = (octets.as_ptr(), octets.len());
    // SAFETY: see above.
    let status =
        unsafe { ristulva_judge_paths(terms, at, len, data.as_mut_ptr(), data.len(), &mut out) };
    (status, out)
}

/// The status, and the length of the message where that is OK or ROOM.
pub fn without_paths(terms: &Terms, octets: &[u8], message: &mut [u8]) -> (u32, usize) {
    let mut written = 0;
    let (at, len) = (octets.as_ptr(), octets.len());
    let (into, room) = (message.as_mut_ptr(), message.len());
    // SAFETY: see above.
    let status = unsafe { ristulva_without_paths(terms, at, len, into, room, &mut written) };
    (status, written)
}

/// The status, and the number of path identifiers where that is OK or ROOM.
pub fn paths(terms: &Terms, octets: &[u8], paths: &mut [u32]) -> (u32, usize) {
    let mut written = 0;
    let (at, len) = (octets.as_ptr(), octets.len());
    let (into, room) = (paths.as_mut_ptr(), paths.len());
    // SAFETY: see above.
    let status = unsafe { ristulva_paths(terms, at, len, into, room, &mut written) };
    (status, written)
}

/// Room that is enough for each name.
const NAME: usize = 64;

pub fn name(kind: u8, number: u8, subcode: u8) -> String {
    let (mut text, mut written) = ([0u8; NAME], 0);
    // SAFETY: see above.
    unsafe {
        ristulva_name(
            kind,
            number,
            subcode,
            text.as_mut_ptr().cast(),
            NAME,
            &mut written,
        )
    };
    String::from_utf8_lossy(&text[..written]).into_owned()
}

/// The room of a message: enough for each call.
pub type Room = [u8; crate::MESSAGE];

/// The most octets of a NOTIFICATION's data.
pub const DATA: usize = 4075;

/// The room of these: enough for each call.
pub type Data = [u8; DATA];

/// A decoder, which is freed when it is dropped. As with a [`Session`], its handle is in a cell.
pub struct Decoder(UnsafeCell<Handle>);

// SAFETY: as for a session, below.
unsafe impl Send for Decoder {}

impl Decoder {
    /// A decoder, or the status where there is none.
    pub fn new(context: &Context) -> Result<Decoder, u32> {
        let mut handle = Handle {
            body: ptr::null_mut(),
        };
        // SAFETY: see above; the handle has no decoder yet.
        match unsafe { ristulva_decoder_new(context, &mut handle) } {
            OK => Ok(Decoder(handle.into())),
            status => Err(status),
        }
    }

    /// The number of octets of the piece consumed, and the verdict, which is none where that isn't
    /// OK: where INCOMPLETE all were consumed, and after a reset none.
    pub fn pull(
        &mut self,
        piece: &[u8],
        message: &mut Room,
        data: &mut Data,
    ) -> (usize, Option<Verdict>) {
        let (mut taken, mut out) = (0, Verdict::default());
        let (handle, at, len) = (self.0.get(), piece.as_ptr(), piece.len());
        let (into, room) = (message.as_mut_ptr(), message.len());
        let (data, data_room) = (data.as_mut_ptr(), data.len());
        let (count, told) = (&mut taken, &mut out);
        // SAFETY: see above.
        let status = unsafe {
            ristulva_decoder_pull(handle, at, len, into, room, data, data_room, count, told)
        };
        (taken, (status == OK).then_some(out))
    }

    /// The number of octets of an incomplete message that it holds.
    pub fn held(&self) -> usize {
        let mut held = 0;
        // SAFETY: see above.
        unsafe { ristulva_decoder_held(self.0.get(), &mut held) };
        held
    }
}

impl Drop for Decoder {
    fn drop(&mut self) {
        // SAFETY: see above. It has a decoder, and nothing is given the handle after this.
        unsafe { ristulva_decoder_free(self.0.get()) };
    }
}

/// A stream by terms, which is freed when it is dropped, as a [`Decoder`] is.
pub struct Stream(UnsafeCell<Handle>);

// SAFETY: as for a session, below.
unsafe impl Send for Stream {}

impl Stream {
    /// A stream, or the status where there is none.
    pub fn new(terms: &Terms) -> Result<Stream, u32> {
        let mut handle = Handle {
            body: ptr::null_mut(),
        };
        // SAFETY: see above; the handle has no stream yet.
        match unsafe { ristulva_stream_new(terms, &mut handle) } {
            OK => Ok(Stream(handle.into())),
            status => Err(status),
        }
    }

    /// As [`Decoder::pull`].
    pub fn pull(
        &mut self,
        piece: &[u8],
        message: &mut Room,
        data: &mut Data,
    ) -> (usize, Option<Verdict>) {
        let (mut taken, mut out) = (0, Verdict::default());
        let (handle, at, len) = (self.0.get(), piece.as_ptr(), piece.len());
        let (into, room) = (message.as_mut_ptr(), message.len());
        let (data, data_room) = (data.as_mut_ptr(), data.len());
        let (count, told) = (&mut taken, &mut out);
        // SAFETY: see above.
        let status = unsafe {
            ristulva_stream_pull(handle, at, len, into, room, data, data_room, count, told)
        };
        (taken, (status == OK).then_some(out))
    }

    /// The number of octets of an incomplete message that it holds.
    pub fn held(&self) -> usize {
        let mut held = 0;
        // SAFETY: see above.
        unsafe { ristulva_stream_held(self.0.get(), &mut held) };
        held
    }
}

impl Drop for Stream {
    fn drop(&mut self) {
        // SAFETY: see above. It has a stream, and nothing is given the handle after this.
        unsafe { ristulva_stream_free(self.0.get()) };
    }
}

/// What a session asks for, and the number of octets it has written into the room of a message.
pub type Told = (Actions, usize);

/// A session, which is freed when it is dropped.
///
/// A call may write its handle, whatever it answers, so that is in a cell, which threads don't
/// share: so one call at a time is given it. Nothing else has it, and only `new` and `drop` change
/// whether it has a session.
pub struct Session(UnsafeCell<Handle>);

// SAFETY: a handle may move between threads. What it points to is memory of its own, taken from
// `malloc`, and no call keeps anything of the thread that makes it.
unsafe impl Send for Session {}

impl Session {
    /// A session, or the status where there is none.
    pub fn new(config: &Config) -> Result<Session, u32> {
        let mut handle = Handle {
            body: ptr::null_mut(),
        };
        // SAFETY: see above; the handle has no session yet.
        match unsafe { ristulva_session_new(config, &mut handle) } {
            OK => Ok(Session(handle.into())),
            status => Err(status),
        }
    }

    pub fn state(&self) -> u8 {
        let mut state = 0;
        // SAFETY: see above.
        unsafe { ristulva_session_state(self.0.get(), &mut state) };
        state
    }

    /// The number of the event has to be one of the header's: nothing happens by another.
    pub fn event(&mut self, event: u32, message: &mut Room) -> Told {
        let (mut told, mut written) = (Actions::default(), 0);
        let (handle, into, room) = (self.0.get(), message.as_mut_ptr(), message.len());
        // SAFETY: see above.
        unsafe { ristulva_session_event(handle, event, &mut told, into, room, &mut written) };
        (told, written)
    }

    /// Nothing where the octets are less than a message, or where the connection isn't up.
    pub fn hear(&mut self, octets: &[u8], message: &mut Room) -> Option<(Heard, Told)> {
        let (mut heard, mut told, mut written) = (Heard::default(), Actions::default(), 0);
        let (handle, at, len) = (self.0.get(), octets.as_ptr(), octets.len());
        let (into, room) = (message.as_mut_ptr(), message.len());
        let (said, wrote) = (&mut told, &mut written);
        // SAFETY: see above.
        let status =
            unsafe { ristulva_session_hear(handle, at, len, &mut heard, said, into, room, wrote) };
        (status == OK).then_some((heard, (told, written)))
    }

    /// The context and the Hold Time, in OpenConfirm and Established.
    pub fn context(&self) -> Option<(Context, u16)> {
        let (mut context, mut hold) = (Context::default(), 0);
        // SAFETY: see above.
        let status = unsafe { ristulva_session_context(self.0.get(), &mut context, &mut hold) };
        (status == OK).then_some((context, hold))
    }

    /// The parameters of the peer's OPEN, in OpenConfirm and Established.
    pub fn peer(&self) -> Option<Peer> {
        let mut peer = Peer::default();
        // SAFETY: see above.
        let status = unsafe { ristulva_session_peer(self.0.get(), &mut peer) };
        (status == OK).then_some(peer)
    }

    /// The number of codes written to the beginning of a room that is enough for all, in
    /// OpenConfirm and Established.
    pub fn codes(&self, codes: &mut [u8; 256]) -> Option<usize> {
        let (mut written, handle) = (0, self.0.get());
        // SAFETY: see above.
        let status = unsafe {
            ristulva_session_codes(handle, codes.as_mut_ptr(), codes.len(), &mut written)
        };
        (status == OK).then_some(written)
    }

    /// The length of the own OPEN, which is written to the beginning of the room.
    pub fn open(&self, message: &mut Room) -> usize {
        let (mut written, into, room) = (0, message.as_mut_ptr(), message.len());
        // SAFETY: see above.
        unsafe { ristulva_session_open(self.0.get(), into, room, &mut written) };
        written
    }

    /// What is to be done when what is written is sent, or the status where nothing is.
    pub fn send(&self, body: &[u8], message: &mut Room) -> Result<Told, u32> {
        let (mut told, mut written) = (Actions::default(), 0);
        let (handle, at, len) = (self.0.get(), body.as_ptr(), body.len());
        let (into, room) = (message.as_mut_ptr(), message.len());
        // SAFETY: see above.
        let status =
            unsafe { ristulva_session_send(handle, at, len, &mut told, into, room, &mut written) };
        match status {
            OK => Ok((told, written)),
            status => Err(status),
        }
    }
}

impl Drop for Session {
    fn drop(&mut self) {
        // SAFETY: see above. It has a session, and nothing is given the handle after this.
        unsafe { ristulva_session_free(self.0.get()) };
    }
}
