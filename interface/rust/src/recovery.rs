//! Reading a region: its settings, recovery through a page, the scan of a slice, and find.

use crate::ffi;
use crate::record::Found;
use crate::refusal::Refusal;

/// A page of so many bytes suffices for every region, and is what the theorem on power cuts asks for. Recovery fills a
/// page by whole read units, so that [`LONGEST_RECORD`](crate::LONGEST_RECORD) bytes suffice for read units of up to
/// 512 only. The region's length, rounded up to the read unit, suffices for that region.
pub const PAGE_BYTES: usize = 69_632;

/// The region's length, the bytes that are programmed together and the bytes that are read together. The fields are
/// public, so that any settings can be passed; what is outside the limits is refused by the call that uses it.
pub type Geometry = ffi::Geometry;

impl Geometry {
    /// The settings of a region: at most 16,777,216 bytes, a program unit that is a power of two up to 256, a read unit
    /// that is one up to 4,096. Numbers that 32 bits do not hold are refused, and not cut off as by `as u32`.
    pub fn new(bytes: usize, program_size: usize, read_size: usize) -> Result<Self, Refusal> {
        // SAFETY: the call takes numbers only, and any.
        let settings = unsafe { ffi::jardolento_geometry_new(bytes, program_size, read_size) };
        Refusal::unless(settings.refused, settings.geometry)
    }
}

/// How a recovery ended, and at which offset.
#[derive(Clone, Copy, Debug, PartialEq, Eq)]
pub enum Ending {
    /// All is 0xFF from here on: a record may be appended here.
    Clean {
        append_at: u32,
    },
    Damaged {
        at: u32,
    },
    /// Page or region would not do, so the records found may not be all.
    Incomplete {
        at: u32,
    },
    Unsealed {
        at: u32,
    },
}

/// A recovery's state. The field is public, so that any state can be passed and kept.
#[derive(Clone, Copy, Debug, PartialEq, Eq)]
pub struct Recovery(pub ffi::Recovery);

impl Recovery {
    /// A recovery from offset 0.
    pub fn new(geometry: Geometry) -> Self {
        // SAFETY: the call takes numbers only, and any.
        Self(unsafe { ffi::jardolento_recovery_new(geometry) })
    }

    /// The next record, or `None` once the recovery has ended. The record borrows the page that it was read into.
    ///
    /// After a refusal nothing more is found. Stop at it: one for the settings leaves the state as it was, and would
    /// come again.
    pub fn next<'page>(&mut self, region: &[u8], page: &'page mut [u8]) -> Option<Result<Found<'page>, Refusal>> {
        // SAFETY: each pointer goes with its slice's length, and `page` is borrowed alone, so it overlaps nothing.
        let step = unsafe {
            ffi::jardolento_recovery_next(self.0, region.as_ptr(), region.len(), page.as_mut_ptr(), page.len())
        };
        self.0 = step.state;
        answer(step.refused, step.is_found, || Found::of(step.found, page))
    }

    /// How it ended, or `None` if it has not.
    pub fn ending(&self) -> Option<Ending> {
        let at = self.0.offset;
        match self.0.ending {
            0 => None,
            1 => Some(Ending::Clean { append_at: at }),
            2 => Some(Ending::Damaged { at }),
            4 => Some(Ending::Unsealed { at }),
            _ => Some(Ending::Incomplete { at }),
        }
    }

    /// Where the next step reads, or where the recovery ended.
    pub fn offset(&self) -> u32 {
        self.0.offset
    }

    /// How many reads it has made of the region since its start, those of headers among them. One that the page did
    /// not hold was refused and not made. [`costliest`] says how many there can be.
    pub fn reads(&self) -> u64 {
        self.0.reads
    }
}

/// Writes a region of the slice's length whose recovery makes the most reads, over whatever it held: the shortest
/// records, sealed, one right behind the other, and 0xFF behind the last. Refused settings leave it unchanged.
///
/// How many reads a start-up makes at most is a formula of the lengths; a run over this region makes just as many.
/// The page holds the region's length, rounded up to the read unit:
///
/// ```
/// use jardolento::{costliest, Geometry, Recovery, Refusal};
///
/// fn most_reads(len: usize, program_size: usize) -> usize {
///     let shortest = 16_usize.next_multiple_of(program_size) + program_size;
///     let behind = match len % shortest {
///         0 => 0,
///         1..=11 => 1,
///         _ => 2,
///     };
///     2 * (len / shortest) + behind
/// }
///
/// fn reads_of_costliest(len: usize, program_size: usize, read_size: usize) -> Result<u64, Refusal> {
///     let (mut region, mut page) = (vec![0; len], vec![0; len.next_multiple_of(read_size)]);
///     costliest(program_size, read_size, &mut region)?;
///     let mut recovery = Recovery::new(Geometry::new(len, program_size, read_size)?);
///     while recovery.next(&region, &mut page).transpose()?.is_some() {}
///     Ok(recovery.reads())
/// }
///
/// assert_eq!(most_reads(65_536, 4), 6_554);
/// assert_eq!(reads_of_costliest(65_536, 4, 1), Ok(6_554));
/// ```
pub fn costliest(program_size: usize, read_size: usize, region: &mut [u8]) -> Result<(), Refusal> {
    // SAFETY: the pointer and the length are of one slice, borrowed alone.
    let refused = unsafe { ffi::jardolento_costliest(program_size, read_size, region.as_mut_ptr(), region.len()) };
    Refusal::unless(refused, ())
}

/// A scan's state. The field is public, so that any state can be passed and kept.
#[derive(Clone, Copy, Debug, PartialEq, Eq)]
pub struct Scan(pub ffi::Scan);

impl Scan {
    /// A scan from a slice's start.
    pub fn new(align: usize) -> Self {
        // SAFETY: the call takes numbers only, and any.
        Self(unsafe { ffi::jardolento_scan_new(align) })
    }

    /// The next record, or `None` once the scan has ended. The record borrows the slice.
    ///
    /// After a refusal nothing more is found. Stop at it: one for the settings leaves the state as it was, and would
    /// come again.
    pub fn next<'journal>(&mut self, journal: &'journal [u8]) -> Option<Result<Found<'journal>, Refusal>> {
        // SAFETY: the pointer and the length are of one slice; the call only reads it.
        let step = unsafe { ffi::jardolento_scan_next(self.0, journal.as_ptr(), journal.len()) };
        self.0 = step.state;
        // A found record's parts count from its own start.
        answer(step.refused, step.is_found, || Found::of(step.found, journal.get(step.found.offset..).unwrap_or(&[])))
    }

    /// Where the next step reads, or where the scan stopped.
    pub fn offset(&self) -> usize {
        self.0.offset
    }

    /// Whether it has stopped, at erased bytes or at a refusal.
    pub fn stopped(&self) -> bool {
        self.0.stopped != 0
    }
}

/// The offset of the latest record of kind 2 to 6 or 9 that carries the sequence; `None` where there is none.
pub fn find(
    seq: u32,
    program_size: usize,
    read_size: usize,
    region: &[u8],
    page: &mut [u8],
) -> Result<Option<u32>, Refusal> {
    // SAFETY: each pointer goes with its slice's length, and `page` is borrowed alone, so it overlaps nothing.
    let answer = unsafe {
        ffi::jardolento_find(seq, program_size, read_size, region.as_ptr(), region.len(), page.as_mut_ptr(), page.len())
    };
    Refusal::unless(answer.refused, (answer.is_found != 0).then_some(answer.offset))
}

/// A step's answer: a refusal, a record, or nothing more.
fn answer<'a>(
    refused: ffi::Refused,
    is_found: u8,
    found: impl FnOnce() -> Found<'a>,
) -> Option<Result<Found<'a>, Refusal>> {
    if let Some(refusal) = Refusal::of(refused) {
        return Some(Err(refusal));
    }
    (is_found != 0).then(|| Ok(found()))
}
