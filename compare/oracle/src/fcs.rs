//! The two checks of RFC 1662 as the Rust's check parameter: bit by bit, for the comparison, and by table, for the
//! benchmark.
//!
//! The loops stay plain. The compiler may turn those over bits into a table by itself, and does where it knows how.

use crate::integrity::IntegrityCheck;

/// The 16-bit FCS in the header and the 32-bit FCS in the frame, bit by bit.
#[derive(Clone, Copy, Debug, Default, PartialEq, Eq)]
pub struct Fcs;

impl IntegrityCheck for Fcs {
    fn header_check(bytes: &[u8]) -> u16 {
        let mut fcs = 0xFFFF_u16;
        for byte in bytes {
            fcs ^= u16::from(*byte);
            for _ in 0..8 {
                fcs = if fcs & 1 != 0 { (fcs >> 1) ^ 0x8408 } else { fcs >> 1 };
            }
        }
        !fcs
    }

    fn frame_check(bytes: &[u8]) -> u32 {
        let mut fcs = 0xFFFF_FFFF_u32;
        for byte in bytes {
            fcs ^= u32::from(*byte);
            for _ in 0..8 {
                fcs = if fcs & 1 != 0 { (fcs >> 1) ^ 0xEDB8_8320 } else { fcs >> 1 };
            }
        }
        !fcs
    }
}

/// The same by table: for each octet one lookup, then the shift.
#[derive(Clone, Copy, Debug, Default, PartialEq, Eq)]
pub struct FcsByTable;

static TABLE_16: [u16; 256] = {
    let mut table = [0; 256];
    let mut octet = 0;
    while octet < 256 {
        table[octet] = entry(0x8408, octet as u32) as u16;
        octet += 1;
    }
    table
};

static TABLE_32: [u32; 256] = {
    let mut table = [0; 256];
    let mut octet = 0;
    while octet < 256 {
        table[octet] = entry(0xEDB8_8320, octet as u32);
        octet += 1;
    }
    table
};

/// What eight bits shifted out make of an octet.
const fn entry(polynomial: u32, octet: u32) -> u32 {
    let mut entry = octet;
    let mut bit = 0;
    while bit < 8 {
        entry = if entry & 1 != 0 { (entry >> 1) ^ polynomial } else { entry >> 1 };
        bit += 1;
    }
    entry
}

impl IntegrityCheck for FcsByTable {
    fn header_check(bytes: &[u8]) -> u16 {
        let mut fcs = 0xFFFF_u32;
        for byte in bytes {
            fcs = (fcs >> 8) ^ u32::from(TABLE_16[usize::from(fcs as u8 ^ byte)]);
        }
        !fcs as u16
    }

    fn frame_check(bytes: &[u8]) -> u32 {
        let mut fcs = 0xFFFF_FFFF_u32;
        for byte in bytes {
            fcs = (fcs >> 8) ^ TABLE_32[usize::from(fcs as u8 ^ byte)];
        }
        !fcs
    }
}
