//! The oracle: the Rust of waymaker-core and waymaker-flash, compiled unchanged, as one crate.
//!
//! What the Rust's files mention and are not there for is stood in for here: the two crate roots (this file), `crc` and
//! `bank`. `fcs` fills the Rust's check parameter as our boxes do, `memory` is a flash in memory.

#![allow(dead_code, clippy::all)]

// The flash files say `use waymaker_core::...`: that crate is this one.
extern crate self as waymaker_core;

mod bank;
mod crc;
pub mod fcs;
pub mod memory;

include!(concat!(env!("OUT_DIR"), "/modules.rs"));

pub use activity::{ActivityKind, ActivityName};
pub use error::{DecodeError, KernelError};
pub use id::EffectSeq;
pub use record::{RecordKind, RecordRef};
