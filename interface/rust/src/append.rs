//! Appending: the journal, its three steps and what they wrote.

use crate::ffi;
use crate::record::Given;
use crate::refusal::Refusal;

/// What was written; each count stops at [`u64::MAX`]. `uncommitted_appends` is one more from stage on and one fewer
/// from commit on: so one more while a record is under way, and for good where its commit never answered.
pub type Written = ffi::Written;

impl Written {
    /// The two counts together.
    pub fn plus(self, other: Self) -> Self {
        // SAFETY: the call takes numbers only, and any.
        unsafe { ffi::jardolento_written_plus(self, other) }
    }

    /// The bytes that were programmed beside the payload.
    pub fn overhead_bytes(self) -> u64 {
        // SAFETY: the call takes numbers only, and any.
        unsafe { ffi::jardolento_overhead_bytes(self) }
    }
}

/// How far the append under way has come.
#[derive(Clone, Copy, Debug, PartialEq, Eq)]
pub enum Phase {
    /// None is under way.
    Ready,
    /// The body is programmed.
    Staged,
    /// The body is confirmed.
    Confirmed,
    /// A number that no call gives.
    Other(u8),
}

/// Where the next record goes, what is under way, and what was written. The field is public, so that any state can be
/// passed and kept.
#[derive(Clone, Copy, Debug, PartialEq, Eq)]
pub struct Journal(pub ffi::Journal);

impl Journal {
    /// Recovers to the end, and makes a journal that is ready to append there.
    pub fn open(program_size: usize, read_size: usize, region: &[u8], page: &mut [u8]) -> Result<Self, Refusal> {
        // SAFETY: each pointer goes with its slice's length, and `page` is borrowed alone, so it overlaps nothing.
        let opening = unsafe {
            ffi::jardolento_open(program_size, read_size, region.as_ptr(), region.len(), page.as_mut_ptr(), page.len())
        };
        Refusal::unless(opening.refused, Self(opening.journal))
    }

    /// The same, and the journal's counts go on from these, so that they count for the box's whole life: keep
    /// [`Journal::written`] after each stage and each commit, and hand it over at the next start. A count above 2 to
    /// the 62nd is refused before anything is read; so none stops before the next opening.
    pub fn open_with(
        written: Written,
        program_size: usize,
        read_size: usize,
        region: &[u8],
        page: &mut [u8],
    ) -> Result<Self, Refusal> {
        // SAFETY: each pointer goes with its slice's length, and `page` is borrowed alone, so it overlaps nothing.
        let opening = unsafe {
            ffi::jardolento_open_with(
                written,
                program_size,
                read_size,
                region.as_ptr(),
                region.len(),
                page.as_mut_ptr(),
                page.len(),
            )
        };
        Refusal::unless(opening.refused, Self(opening.journal))
    }

    /// The first step: programs the record's body, and leaves the whole record in the page. Wait until it is on flash.
    pub fn stage<'a>(
        &mut self,
        record: impl Into<Given<'a>>,
        region: &mut [u8],
        page: &mut [u8],
    ) -> Result<(), Refusal> {
        let Given { record, free } = record.into();
        // SAFETY: each pointer goes with its slice's length; `region` and `page` are each borrowed alone.
        let step = unsafe {
            ffi::jardolento_stage(
                self.0,
                record,
                free.as_ptr(),
                free.len(),
                region.as_mut_ptr(),
                region.len(),
                page.as_mut_ptr(),
                page.len(),
            )
        };
        self.advance(step).map(|_| ())
    }

    /// The second step: confirms the body.
    pub fn payload_barrier(&mut self, region: &[u8]) -> Result<(), Refusal> {
        // SAFETY: the pointer and the length are of one slice; the call only reads it.
        let step = unsafe { ffi::jardolento_payload_barrier(self.0, region.as_ptr(), region.len()) };
        self.advance(step).map(|_| ())
    }

    /// The third step: programs the seal, and answers what this record alone wrote. Wait until it is on flash.
    pub fn commit(&mut self, region: &mut [u8]) -> Result<Written, Refusal> {
        // SAFETY: the pointer and the length are of one slice, which is borrowed alone.
        let step = unsafe { ffi::jardolento_commit(self.0, region.as_mut_ptr(), region.len()) };
        self.advance(step)
    }

    /// Where the next record goes.
    pub fn offset(&self) -> u32 {
        self.0.offset
    }

    /// What was written: since the opening, and the counts that it was handed.
    pub fn written(&self) -> Written {
        self.0.written
    }

    pub fn phase(&self) -> Phase {
        match self.0.phase {
            0 => Phase::Ready,
            1 => Phase::Staged,
            2 => Phase::Confirmed,
            other => Phase::Other(other),
        }
    }

    /// Takes the journal that a step gives back, which is the old one where it is refused.
    fn advance(&mut self, step: ffi::Advanced) -> Result<Written, Refusal> {
        self.0 = step.journal;
        Refusal::unless(step.refused, step.written)
    }
}
