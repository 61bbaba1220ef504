//! Stands in for the banks: only what `JournalRegion::of` mentions, which this comparison never calls.

use crate::frame::ProgramAlign;
use crate::storage::Geometry;

#[derive(Clone, Copy)]
pub struct BankId;

pub struct BankHeader<'a> {
    pub align: ProgramAlign,
    pub label: &'a [u8],
}

impl BankHeader<'_> {
    pub fn journal_offset(&self) -> Option<usize> {
        None
    }
}

#[derive(Clone, Copy)]
pub struct BankRegion {
    base: u32,
    payload_bytes: u32,
}

impl BankRegion {
    pub fn base(self) -> u32 {
        self.base
    }

    pub fn payload_bytes(self) -> u32 {
        self.payload_bytes
    }
}

#[derive(Clone, Copy)]
pub struct BankLayout {
    geometry: Geometry,
    align: ProgramAlign,
}

impl BankLayout {
    pub fn align(self) -> ProgramAlign {
        self.align
    }

    pub fn geometry(self) -> Geometry {
        self.geometry
    }

    pub fn bank(self, _bank: BankId) -> BankRegion {
        BankRegion { base: 0, payload_bytes: 0 }
    }
}
