//! A record as it lies on flash, made by the library, and the damage that can be done to it.
//!
//! Checks and seals over damaged bytes are computed by the library too, so that an image differs from a good one by
//! just what it tries.

use jardolento::{encode, encoded_len, frame_check, header_check, RecordRef};

const HEADER: usize = 12;

/// The bytes of one record under a program unit: frame, padding and slot.
#[derive(Clone)]
pub struct Laid {
    bytes: Vec<u8>,
    unit: usize,
}

/// The record, whole and sealed.
pub fn laid(record: RecordRef<'_>, unit: usize) -> Laid {
    let len = encoded_len(record, unit).expect("the record and the unit are good");
    let mut bytes = vec![0; len];
    encode(record, unit, &mut bytes).expect("the output is as long as the record");
    Laid { bytes, unit }
}

impl Laid {
    pub fn len(&self) -> usize {
        self.bytes.len()
    }

    /// The record's bytes as they are now.
    pub fn bytes(&self) -> &[u8] {
        &self.bytes
    }

    /// The frame's length by the header as it is now.
    pub fn frame_len(&self) -> usize {
        HEADER + usize::from(u16::from_le_bytes([self.bytes[8], self.bytes[9]])) + 4
    }

    pub fn sequence(&self) -> u32 {
        u32::from_le_bytes([self.bytes[4], self.bytes[5], self.bytes[6], self.bytes[7]])
    }

    /// Where the slot begins.
    pub fn slot(&self) -> usize {
        self.bytes.len() - self.unit
    }

    /// The slot stays erased: the append was cut before its commit.
    pub fn unsealed(mut self) -> Self {
        let slot = self.slot();
        self.bytes[slot..].fill(0xFF);
        self
    }

    /// These bytes stand from a place on.
    pub fn put(mut self, place: usize, bytes: &[u8]) -> Self {
        self.bytes[place..place + bytes.len()].copy_from_slice(bytes);
        self
    }

    /// The bits of the mask are turned.
    pub fn flip(mut self, place: usize, mask: u8) -> Self {
        self.bytes[place] ^= mask;
        self
    }

    /// The header check agrees with the ten bytes before it.
    pub fn header_anew(mut self) -> Self {
        let check = header_check(&self.bytes[..HEADER - 2]);
        self.bytes[HEADER - 2..HEADER].copy_from_slice(&check.to_le_bytes());
        self
    }

    /// The frame check agrees with header and payload.
    pub fn frame_anew(mut self) -> Self {
        let end = self.frame_len();
        let check = frame_check(&self.bytes[..end - 4]);
        self.bytes[end - 4..end].copy_from_slice(&check.to_le_bytes());
        self
    }

    /// The slot holds the seal of the frame check as it is now.
    pub fn sealed_anew(mut self) -> Self {
        let (end, slot) = (self.frame_len(), self.slot());
        for place in slot..self.bytes.len() {
            self.bytes[place] = self.bytes[end - 4 + (place - slot) % 4] & 0x7F;
        }
        self
    }

    /// Both checks and the seal agree with the bytes as they are now.
    pub fn anew(self) -> Self {
        self.header_anew().frame_anew().sealed_anew()
    }

    /// Another kind, with checks and seal that agree.
    pub fn of_kind(self, kind: u8) -> Self {
        self.put(3, &[kind]).anew()
    }

    /// Another sequence, with checks and seal that agree.
    pub fn of_sequence(self, sequence: u32) -> Self {
        self.put(4, &sequence.to_le_bytes()).anew()
    }
}

/// A record of a kind with any payload, fitting or not; checks and seal agree.
pub fn laid_with(kind: u8, sequence: u32, payload: &[u8], unit: usize) -> Laid {
    laid(RecordRef::EffectCompleted { seq: sequence, result: payload }, unit).of_kind(kind)
}
