//! A flash in memory: base 0, lent bytes, programming by AND.

use crate::storage::{Geometry, GeometryError, StableStorage};
use std::cell::Cell;

/// Lent bytes under a geometry, and where the reads that are asked of them are counted.
#[derive(Debug)]
pub struct Memory<'a> {
    geometry: Geometry,
    bytes: &'a mut [u8],
    reads: Option<&'a Cell<u64>>,
}

impl<'a> Memory<'a> {
    /// One unit for reading, programming and erasing: the widest domain that the Rust's constructors accept, since the
    /// journal's own granularity may lie above the device's.
    pub fn new(bytes: &'a mut [u8], unit: u32) -> Result<Self, GeometryError> {
        let capacity = u32::try_from(bytes.len()).map_err(|_| GeometryError::OutOfBounds)?;
        let geometry = Geometry::new(capacity, unit, unit, unit)?;
        Ok(Self { geometry, bytes, reads: None })
    }

    pub fn bytes(&self) -> &[u8] {
        self.bytes
    }

    /// For what is done to the flash beside the calls.
    pub fn bytes_mut(&mut self) -> &mut [u8] {
        self.bytes
    }

    /// The same, with each read that is asked for counted there, one that is refused too. A recovery keeps its flash
    /// to its end, so the number stands beside it.
    pub fn counted(self, reads: &'a Cell<u64>) -> Self {
        Self { reads: Some(reads), ..self }
    }

    fn part(&mut self, offset: u32, len: usize) -> Result<&mut [u8], GeometryError> {
        let start = offset as usize;
        let end = start.checked_add(len).ok_or(GeometryError::OutOfBounds)?;
        self.bytes.get_mut(start..end).ok_or(GeometryError::OutOfBounds)
    }
}

impl StableStorage for Memory<'_> {
    type Error = GeometryError;

    fn geometry(&self) -> Geometry {
        self.geometry
    }

    fn read(&mut self, offset: u32, dst: &mut [u8]) -> Result<(), GeometryError> {
        if let Some(reads) = self.reads {
            reads.set(reads.get() + 1);
        }
        self.geometry.validate_read(offset, dst.len() as u32)?;
        dst.copy_from_slice(self.part(offset, dst.len())?);
        Ok(())
    }

    fn program(&mut self, offset: u32, src: &[u8]) -> Result<(), GeometryError> {
        self.geometry.validate_program(offset, src.len() as u32)?;
        for (old, new) in self.part(offset, src.len())?.iter_mut().zip(src) {
            *old &= *new;
        }
        Ok(())
    }

    fn erase(&mut self, offset: u32, len: u32) -> Result<(), GeometryError> {
        self.geometry.validate_erase(offset, len)?;
        self.part(offset, len as usize)?.fill(0xFF);
        Ok(())
    }

    fn barrier(&mut self) -> Result<(), GeometryError> {
        Ok(())
    }
}
