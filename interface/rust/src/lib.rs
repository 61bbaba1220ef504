//! Jardolento, a sealed flash journal that is proved in Rattle, for Rust: the calls of interface/c/jardolento.h over
//! slices, with enums for refusals, records and endings. Every call takes any numbers and any bytes, and answers or
//! refuses.
//!
//! ```
//! use jardolento::{Journal, RecordRef, Refusal};
//!
//! fn append(region: &mut [u8], page: &mut [u8]) -> Result<u64, Refusal> {
//!     let mut journal = Journal::open(4, 1, region, page)?;
//!     journal.stage(RecordRef::EffectCompleted { seq: 1, result: b"ok" }, region, page)?;
//!     journal.payload_barrier(region)?;
//!     let written = journal.commit(region)?;
//!     Ok(written.programmed_bytes)
//! }
//!
//! let (mut region, mut page) = ([0xFF; 30], [0; 30]);
//! assert_eq!(append(&mut region, &mut page), Ok(24));
//! assert_eq!(append(&mut region, &mut page), Err(Refusal::NoRoom { needed: 24, available: 6 }));
//! ```
//!
//! `ffi` holds the C declarations. A `Recovery`, a `Scan` and a `Journal` each hold the C struct of their state as a
//! public field, so that a state can be kept, compared or made up.

#![no_std]

pub mod ffi;

mod append;
mod frame;
mod record;
mod recovery;
mod refusal;

pub use append::{Journal, Phase, Written};
pub use frame::{
    body_len, decode, encode, encoded_len, encoded_len_for, frame_check, frame_len_of, header_check, payload_len, seal,
    Decoded, Frame, LONGEST_RECORD,
};
pub use record::{Found, Given, RecordRef};
pub use recovery::{costliest, find, Ending, Geometry, Recovery, Scan, PAGE_BYTES};
pub use refusal::Refusal;

/// The version, that of the C header; the package's tests compare the two.
pub const VERSION: &str = env!("CARGO_PKG_VERSION");
