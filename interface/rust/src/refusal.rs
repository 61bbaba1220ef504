//! Why a call declines, with the number and the text of each reason.

use core::fmt;

use crate::ffi;

/// A refusal. Its number is that of the C interface.
#[derive(Clone, Copy, Debug, PartialEq, Eq)]
pub enum Refusal {
    /// The region's length or a unit is outside its limits.
    Settings,
    /// The region's length is not the one that the state holds.
    WrongDevice,
    /// The page, by whole read units, holds less than `needed` bytes.
    PageTooSmall { needed: u32 },
    /// The bytes end before the frame that they claim to hold.
    Truncated,
    /// A payload above 65,535 bytes; an output or, at stage, a page shorter than the record; at stage also a clock kind
    /// other than 1 and 2.
    LengthOutOfBounds,
    /// A sealed record of a kind that is not known.
    UnknownKind,
    /// A format version that is not read.
    UnsupportedVersion,
    /// The checks hold, and payload or sequence do not fit the kind; at encode and the lengths a clock kind other than
    /// 1 and 2.
    Malformed,
    /// The first two bytes or a check do not match; with a `place`, erased bytes, and behind them one that is not, the
    /// first at this offset.
    IntegrityFailed { place: Option<u32> },
    /// An intact frame that no seal says was committed; with a `place`, one that would be skipped, being of kind 3, 4
    /// or 6, but for the bytes behind it, of which the first that is not erased is at this offset.
    Unsealed { place: Option<u32> },
    /// Recovery ended elsewhere than at erased bytes.
    NotAppendable,
    /// An append is under way, and another one may not begin.
    Interrupted,
    /// The record takes `needed` bytes, and `available` remain.
    NoRoom { needed: u32, available: u32 },
    /// The step is not the one that follows.
    OutOfOrder,
    /// Kind, sequence or free bytes make no record.
    NotARecord,
    /// A byte where the record is to go is not 0xFF, the first at this offset.
    NotErased { place: u32 },
    /// A count to go on from is above 2 to the 62nd.
    CountTooLarge,
}

impl Refusal {
    /// The refusal that an answer holds, or `None` where it holds none.
    ///
    /// # Panics
    ///
    /// On any other number, and on one that has a place where it should have none or none where it should: the library
    /// never answers so.
    pub fn of(refused: ffi::Refused) -> Option<Self> {
        let place = (refused.has_place != 0).then_some(refused.place);
        Some(match (refused.number, place) {
            (0, None) => return None,
            (1, None) => Self::Settings,
            (2, None) => Self::WrongDevice,
            (3, None) => Self::PageTooSmall { needed: refused.needed },
            (4, None) => Self::Truncated,
            (5, None) => Self::LengthOutOfBounds,
            (6, None) => Self::UnknownKind,
            (7, None) => Self::UnsupportedVersion,
            (8, None) => Self::Malformed,
            (9, place) => Self::IntegrityFailed { place },
            (10, place) => Self::Unsealed { place },
            (11, None) => Self::NotAppendable,
            (12, None) => Self::Interrupted,
            (13, None) => Self::NoRoom { needed: refused.needed, available: refused.available },
            (14, None) => Self::OutOfOrder,
            (15, None) => Self::NotARecord,
            (18, Some(place)) => Self::NotErased { place },
            (24, None) => Self::CountTooLarge,
            (other, place) => panic!("the library answered refusal {other} with place {place:?}, which there is not"),
        })
    }

    /// `value`, unless the answer that it came in holds a refusal.
    pub(crate) fn unless<T>(refused: ffi::Refused, value: T) -> Result<T, Self> {
        match Self::of(refused) {
            None => Ok(value),
            Some(refusal) => Err(refusal),
        }
    }

    /// The number that the C interface gives this reason.
    pub const fn number(self) -> u8 {
        match self {
            Self::Settings => 1,
            Self::WrongDevice => 2,
            Self::PageTooSmall { .. } => 3,
            Self::Truncated => 4,
            Self::LengthOutOfBounds => 5,
            Self::UnknownKind => 6,
            Self::UnsupportedVersion => 7,
            Self::Malformed => 8,
            Self::IntegrityFailed { .. } => 9,
            Self::Unsealed { .. } => 10,
            Self::NotAppendable => 11,
            Self::Interrupted => 12,
            Self::NoRoom { .. } => 13,
            Self::OutOfOrder => 14,
            Self::NotARecord => 15,
            Self::NotErased { .. } => 18,
            Self::CountTooLarge => 24,
        }
    }

    /// The offset of the first byte that is not 0xFF where all were to be, if that is why: from the region's start, in
    /// a scan from its slice's.
    pub const fn place(self) -> Option<u32> {
        match self {
            Self::IntegrityFailed { place } | Self::Unsealed { place } => place,
            Self::NotErased { place } => Some(place),
            _ => None,
        }
    }

    /// The reason in words, without its numbers.
    pub const fn message(self) -> &'static str {
        match self {
            Self::Settings => "the region's length or a unit is outside its limits",
            Self::WrongDevice => "the region's length is not the one that the state holds",
            Self::PageTooSmall { .. } => "the page is too small",
            Self::Truncated => "the bytes end before the frame that they claim to hold",
            Self::LengthOutOfBounds => {
                "a payload above 65,535 bytes, a buffer shorter than the record or, at stage, \
                 a clock kind other than 1 and 2"
            }
            Self::UnknownKind => "a sealed record of a kind that is not known",
            Self::UnsupportedVersion => "a format version that is not read",
            Self::Malformed => "payload or sequence do not fit the kind",
            Self::IntegrityFailed { place: None } => "the first two bytes or a check do not match",
            Self::IntegrityFailed { .. } => "erased bytes, and behind them one that is not",
            Self::Unsealed { place: None } => "an intact frame that no seal says was committed",
            Self::Unsealed { .. } => "an intact frame that no seal says was committed, and no erased bytes behind it",
            Self::NotAppendable => "recovery ended elsewhere than at erased bytes",
            Self::Interrupted => "an append is under way, and another one may not begin",
            Self::NoRoom { .. } => "the record does not fit in what remains of the region",
            Self::OutOfOrder => "the step is not the one that follows",
            Self::NotARecord => "kind, sequence or free bytes make no record",
            Self::NotErased { .. } => "a byte where the record is to go is not 0xFF",
            Self::CountTooLarge => "a count to go on from is above 2 to the 62nd",
        }
    }
}

impl fmt::Display for Refusal {
    fn fmt(&self, f: &mut fmt::Formatter<'_>) -> fmt::Result {
        write!(f, "refusal {}: {}", self.number(), self.message())?;
        match self {
            Self::PageTooSmall { needed } => write!(f, " ({needed} bytes needed)"),
            Self::NoRoom { needed, available } => write!(f, " ({needed} bytes needed, {available} available)"),
            _ => match self.place() {
                Some(place) => write!(f, " (byte {place} is not 0xFF)"),
                None => Ok(()),
            },
        }
    }
}

impl core::error::Error for Refusal {}
