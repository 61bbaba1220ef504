//! The wire format: the two checks, the lengths, encode, the seal and decode.

use crate::ffi;
use crate::record::{part, Given, RecordRef};
use crate::refusal::Refusal;

/// The longest record, padding and slot included: an output of so many bytes holds every record.
pub const LONGEST_RECORD: usize = 66_048;

/// What a frame holds.
#[derive(Clone, Copy, Debug, PartialEq, Eq)]
pub enum Decoded<'a> {
    Record(RecordRef<'a>),
    /// The checks hold, and the kind is not known.
    UnknownKind(u8),
}

/// A frame at the start of some bytes.
#[derive(Clone, Copy, Debug, PartialEq, Eq)]
pub struct Frame<'a> {
    pub format_version: u8,
    pub decoded: Decoded<'a>,
    /// The whole payload, the kind's numbers included; an unknown kind's too.
    pub payload: &'a [u8],
    /// The frame's length, without padding and slot.
    pub frame_len: usize,
    pub frame_crc: u32,
}

/// RFC 1662's 16-bit FCS.
pub fn header_check(bytes: &[u8]) -> u16 {
    // SAFETY: the pointer and the length are of one slice; the call only reads it.
    unsafe { ffi::jardolento_header_check(bytes.as_ptr(), bytes.len()) }
}

/// RFC 1662's 32-bit FCS.
pub fn frame_check(bytes: &[u8]) -> u32 {
    // SAFETY: the pointer and the length are of one slice; the call only reads it.
    unsafe { ffi::jardolento_frame_check(bytes.as_ptr(), bytes.len()) }
}

/// The length of the record's payload.
pub fn payload_len<'a>(record: impl Into<Given<'a>>) -> Result<usize, Refusal> {
    let Given { record, free } = record.into();
    // SAFETY: the pointer and the length are of one slice; the call only reads it.
    length(unsafe { ffi::jardolento_payload_len(record, free.as_ptr(), free.len()) })
}

/// The length, with padding and slot, of a record whose payload has so many bytes.
pub fn encoded_len_for(payload_bytes: usize, align: usize) -> Result<usize, Refusal> {
    // SAFETY: the call takes numbers only, and any.
    length(unsafe { ffi::jardolento_encoded_len_for(payload_bytes, align) })
}

/// The record's length with padding and slot.
pub fn encoded_len<'a>(record: impl Into<Given<'a>>, align: usize) -> Result<usize, Refusal> {
    let Given { record, free } = record.into();
    // SAFETY: the pointer and the length are of one slice; the call only reads it.
    length(unsafe { ffi::jardolento_encoded_len(record, free.as_ptr(), free.len(), align) })
}

/// The length of the record's body, behind which its slot begins.
pub fn body_len<'a>(record: impl Into<Given<'a>>, align: usize) -> Result<usize, Refusal> {
    let Given { record, free } = record.into();
    // SAFETY: the pointer and the length are of one slice; the call only reads it.
    length(unsafe { ffi::jardolento_body_len(record, free.as_ptr(), free.len(), align) })
}

/// The length of the frame that a header describes, without padding and slot.
pub fn frame_len_of(header: &[u8]) -> Result<usize, Refusal> {
    // SAFETY: the pointer and the length are of one slice; the call only reads it.
    length(unsafe { ffi::jardolento_frame_len_of(header.as_ptr(), header.len()) })
}

/// Lays a record out, sealed, in the first bytes of `out`, and answers how many.
pub fn encode<'a>(record: impl Into<Given<'a>>, align: usize, out: &mut [u8]) -> Result<usize, Refusal> {
    let Given { record, free } = record.into();
    // SAFETY: each pointer goes with its slice's length, and `out` is borrowed alone, so it overlaps nothing.
    length(unsafe { ffi::jardolento_encode(record, free.as_ptr(), free.len(), align, out.as_mut_ptr(), out.len()) })
}

/// Fills a slot, of whatever length, with the seal of a frame check.
pub fn seal(frame_crc: u32, slot: &mut [u8]) {
    // SAFETY: the pointer and the length are of one slice, which is borrowed alone.
    unsafe { ffi::jardolento_seal(frame_crc, slot.as_mut_ptr(), slot.len()) }
}

/// The frame at the start of the bytes; its seal is not looked at.
pub fn decode(bytes: &[u8]) -> Result<Frame<'_>, Refusal> {
    // SAFETY: the pointer and the length are of one slice; the call only reads it.
    let answer = unsafe { ffi::jardolento_decode(bytes.as_ptr(), bytes.len()) };
    Refusal::unless(answer.refused, ())?;
    let record = match answer.known {
        0 => None,
        _ => RecordRef::of(answer.record, part(bytes, answer.free)),
    };
    Ok(Frame {
        format_version: answer.format_version,
        decoded: match record {
            Some(record) => Decoded::Record(record),
            None => Decoded::UnknownKind(answer.record.kind),
        },
        payload: part(bytes, answer.payload),
        frame_len: answer.frame_len,
        frame_crc: answer.frame_crc,
    })
}

fn length(answer: ffi::Length) -> Result<usize, Refusal> {
    Refusal::unless(answer.refused, answer.bytes)
}
