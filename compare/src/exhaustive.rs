//! The short inputs, all of them: every string of two octets, every length, every header of small variety, every slot
//! of one or two bytes, every page from nothing to past the record, every edge of a count.

use crate::bytes::{self, ALIGNS};
use crate::counted::may_go_on;
use crate::generate;
use crate::handed::EDGES;
use crate::model::*;
use std::array;

/// Hands each case to `take`, always in the same order.
pub fn each(take: &mut dyn FnMut(Case)) {
    checks(take);
    lengths(take);
    encodings(take);
    headers(take);
    payloads(take);
    slots(take);
    erased(take);
    records(take);
    pages(take);
    appends(take);
    foreign_writes(take);
    counts(take);
}

fn reads(align: u16) -> impl Iterator<Item = u16> {
    ALIGNS.into_iter().filter(move |read| *read <= align)
}

/// A payload that fits the kind where its length does.
fn payload(len: usize) -> Vec<u8> {
    (0..len).map(|at| if at == 0 { 1 } else { (at * 37) as u8 }).collect()
}

fn recovery(units: Units, page_len: usize, region: Vec<u8>) -> Case {
    Case::Recovery { units, held: region.len(), page_len, region }
}

fn checks(take: &mut dyn FnMut(Case)) {
    take(Case::Checks { bytes: Vec::new() });
    take(Case::Checks { bytes: b"123456789".to_vec() });
    for first in 0..=255 {
        take(Case::Checks { bytes: vec![first] });
        for second in 0..=255 {
            take(Case::Checks { bytes: vec![first, second] });
        }
    }
}

fn lengths(take: &mut dyn FnMut(Case)) {
    for align in ALIGNS {
        for payload_bytes in (0..65_540).chain((0..300).map(|less| usize::MAX - less)).chain([1 << 32, 1 << 63]) {
            take(Case::LengthFor { payload_bytes, align });
        }
    }
}

fn encodings(take: &mut dyn FnMut(Case)) {
    for align in ALIGNS {
        for kind in 1..=9 {
            let has_free = matches!(kind, 1 | 3 | 4 | 7 | 8);
            for free_len in 0..if has_free { 41 } else { 1 } {
                let record = Record { kind, clock_kind: 2, deadline: 5, gate: 9, ..Record::default() };
                let fixed = [0, 4, 8, 0, 0, 17, 0, 0, 0, 4][usize::from(kind)];
                let len = bytes::record_len(fixed + free_len, align);
                for out_len in [0, len - 1, len, len + 3] {
                    take(Case::Encode { align, record, free: payload(free_len), out_len });
                }
            }
        }
        for clock_kind in 0..=255 {
            let record = Record { kind: 5, seq: 1, clock_kind, ..Record::default() };
            take(Case::Encode { align, record, free: Vec::new(), out_len: 600 });
        }
        for (kind, free_len) in (65_530..65_537).flat_map(|len| [(1, len), (4, len)]) {
            let record = Record { kind, ..Record::default() };
            take(Case::Encode { align, record, free: vec![7; free_len], out_len: 66_048 });
        }
    }
}

/// Every version with every kind, and every one or two bits of a header, with its check repaired and not.
fn headers(take: &mut dyn FnMut(Case)) {
    for version in 0..=255 {
        for kind in 0..=255 {
            take(Case::Decode { bytes: bytes::frame(version, kind, 0, &[]) });
        }
    }
    let good = bytes::frame(1, 3, 2, &payload(5));
    for first in 0..96 {
        for second in first..96 {
            let mut bytes = good.clone();
            bytes[first / 8] ^= 1 << (first % 8);
            if second != first {
                bytes[second / 8] ^= 1 << (second % 8);
            }
            take(Case::Decode { bytes: bytes.clone() });
            bytes::repair_header(&mut bytes);
            take(Case::Decode { bytes: bytes.clone() });
            bytes::repair_frame(&mut bytes);
            take(Case::Decode { bytes });
        }
    }
}

/// Every kind with every payload length around its own, cut at every byte; sequences 0 and not.
fn payloads(take: &mut dyn FnMut(Case)) {
    for kind in 0..=11 {
        for len in 0..24 {
            for seq in [0, 1, 0x8000_0000] {
                let frame = bytes::frame(1, kind, seq, &payload(len));
                for cut in 0..=frame.len() {
                    take(Case::Decode { bytes: frame[..cut].to_vec() });
                }
                for align in [1, 4, 32] {
                    take(Case::Scan { align, journal: bytes::sealed(&frame, align) });
                }
            }
        }
    }
    for clock_kind in 0..=255 {
        let mut numbers = payload(17);
        numbers[0] = clock_kind;
        take(Case::Decode { bytes: bytes::frame(1, 5, 3, &numbers) });
    }
}

/// Every slot of one byte and of two, for a record that may be skipped and one that may not.
fn slots(take: &mut dyn FnMut(Case)) {
    for kind in [2, 3, 6] {
        let frame = bytes::frame(1, kind, 5, &payload(if kind == 2 { 8 } else { 0 }));
        for slot in 0..=255_u8 {
            let mut region = bytes::record(&frame, 1, &[slot]);
            region.extend(bytes::sealed(&frame, 1));
            take(Case::Scan { align: 1, journal: region.clone() });
            take(recovery(Units { program: 1, read: 1 }, 40, region));
        }
        for slot in 0..=u16::MAX {
            take(Case::Scan { align: 2, journal: bytes::record(&frame, 2, &slot.to_le_bytes()) });
        }
    }
}

/// Erased regions up to 40 bytes, whole and with one bit programmed at each place.
fn erased(take: &mut dyn FnMut(Case)) {
    for align in ALIGNS {
        take(Case::Scan { align, journal: Vec::new() });
    }
    for read in [1, 2, 4, 8, 16] {
        for len in (1..=40).filter(|len| len % usize::from(read) == 0) {
            for place in 0..=len {
                let mut region = vec![0xFF; len];
                if let Some(byte) = region.get_mut(place) {
                    *byte = 0xFE;
                }
                for page_len in [0, 11, 12, 15, 16, 40] {
                    let units = Units { program: 16, read };
                    take(recovery(units, page_len, region.clone()));
                }
                take(Case::Scan { align: read, journal: region });
            }
        }
    }
}

/// One record of every kind under every unit, sealed, unsealed and half sealed, in regions a little short, exact and
/// longer, with another record behind it.
fn records(take: &mut dyn FnMut(Case)) {
    for align in ALIGNS {
        for kind in 0..=10 {
            for len in [0, 1, 3, 4, 8, 12, 16, 17, 18] {
                let frame = bytes::frame(1, kind, u32::from(!matches!(kind, 1 | 7 | 8)), &payload(len));
                let mut half = bytes::seal(&frame, align);
                half[usize::from(align) / 2..].fill(0xFF);
                let mut dirty = bytes::unsealed(&frame, align);
                dirty[frame.len()] &= 0xFE;
                for record in [
                    bytes::sealed(&frame, align),
                    bytes::unsealed(&frame, align),
                    bytes::record(&frame, align, &half),
                    dirty,
                ] {
                    around(take, align, &record);
                }
            }
        }
    }
}

fn around(take: &mut dyn FnMut(Case), align: u16, record: &[u8]) {
    let second = bytes::sealed(&bytes::frame(1, 6, 7, &[]), align);
    let twice = [record, &second].concat();
    for (at, read) in reads(align).enumerate() {
        let unit = usize::from(read);
        let mut region = twice.clone();
        // Each read unit takes another length, so that all lengths are seen without all pairs.
        region.resize(twice.len() + at * unit, 0xFF);
        let units = Units { program: align, read };
        take(recovery(units, twice.len(), region.clone()));
        take(Case::Find { units, page_len: twice.len(), region, seq: 1 });
        let short = record.len() - unit;
        take(recovery(units, record.len(), record[..short].to_vec()));
        take(Case::Scan { align, journal: record[..record.len() - 1 - at].to_vec() });
    }
    take(Case::Scan { align, journal: twice });
}

/// Every page from nothing to past the record, for all units.
fn pages(take: &mut dyn FnMut(Case)) {
    for align in ALIGNS {
        let region = bytes::sealed(&bytes::frame(1, 4, 7, &payload(9)), align);
        for read in reads(align) {
            for page_len in 0..region.len() + 5 {
                take(recovery(Units { program: align, read }, page_len, region.clone()));
            }
        }
    }
}

/// One append of every kind under all units, with room and page one short, exact and one long.
fn appends(take: &mut dyn FnMut(Case)) {
    for align in ALIGNS {
        for read in reads(align) {
            for kind in 1..=9 {
                let len = bytes::record_len([0, 4, 8, 0, 0, 17, 0, 0, 0, 4][usize::from(kind)], align);
                let unit = usize::from(read);
                for (room, page_len) in [(len - unit, len), (len, len - 1), (len, len), (len + unit, len + 1)] {
                    let record = Record { kind, clock_kind: 1, input_crc: 77, gate: 3, ..Record::default() };
                    let stage = Call::Stage(record, Vec::new());
                    let calls = vec![Call::Open, stage.clone(), Call::Barrier, Call::Commit, stage, Call::Open];
                    let units = Units { program: align, read };
                    take(generate::expressible(Case::Append { units, page_len, region: vec![0xFF; room], calls }));
                }
            }
        }
    }
}

/// A stranger's byte at each edge of the next record's body and slot, before it and behind it; in regions short of room
/// by a read unit, with pages short by a byte, and with enough of both. They come behind the others, as do those below,
/// so that the fixed list, which takes one case in so many, stays as it is.
fn foreign_writes(take: &mut dyn FnMut(Case)) {
    for align in ALIGNS {
        let found = bytes::sealed(&bytes::frame(1, 6, 1, &[]), align);
        let stage = Call::Stage(Record { kind: 4, seq: 2, ..Record::default() }, payload(usize::from(align) + 3));
        let len = bytes::record_len(usize::from(align) + 3, align);
        let (start, slot, end) = (found.len(), found.len() + len - usize::from(align), found.len() + len);
        for read in reads(align) {
            for (room, page_len) in [(len - usize::from(read), len), (len, len - 1), (2 * len, len)] {
                let mut region = found.clone();
                region.resize(start + room, 0xFF);
                for at in [start - 1, start, start + 1, slot - 1, slot, end - 1, end, end + 1] {
                    for byte in [0, 0xFE] {
                        let foreign = Call::Foreign { at, bytes: vec![byte] };
                        let append = [stage.clone(), Call::Barrier, Call::Commit];
                        let calls = [&[Call::Open, foreign], &append[..], &[stage.clone(), Call::Open]].concat();
                        let units = Units { program: align, read };
                        take(generate::expressible(Case::Append { units, page_len, region: region.clone(), calls }));
                    }
                }
            }
        }
    }
}

/// The smallest sum that the Rust's counts do not hold: 4,294,967,295 payload bytes and 1.
pub fn past_the_stop() -> Case {
    let mut doublings = vec![false];
    doublings.extend([true, false].repeat(31));
    doublings.push(false);
    Case::Counts { align: 1, free_len: 1, doublings }
}

/// Every edge of a count, in each place alone and in all: added to every other, and handed to an opening of a region
/// that is erased, of one that is not, and of one whose program unit is outside its limits.
fn counts(take: &mut dyn FnMut(Case)) {
    take(past_the_stop());
    // A region that is one byte too long.
    let calls = vec![Call::OpenWith(Written::of([u64::MAX; PLACES]))];
    take(Case::Append { units: Units { program: 1, read: 1 }, page_len: 18, region: vec![0xFF; 16_777_217], calls });
    // All five counts grow by it.
    let stage = Call::Stage(Record { kind: 4, seq: 7, ..Record::default() }, payload(1));
    for place in 0..=PLACES {
        let counts = |count| Written::of(array::from_fn(|at| if at == place || place == PLACES { count } else { 0 }));
        for handed in EDGES.map(counts) {
            for other in EDGES.map(counts) {
                take(Case::Sum { x: handed, y: other });
            }
            let opening = vec![Call::OpenWith(handed)];
            // What is refused leaves no journal.
            let again = if may_go_on(handed) { Vec::new() } else { vec![Call::Open] };
            let calls = [&opening[..], &again, &[stage.clone(), Call::Barrier, Call::Commit], &opening].concat();
            for (program, byte, calls) in [(1, 0xFF, &calls), (1, 0, &opening), (3, 0xFF, &opening)] {
                let units = Units { program, read: 1 };
                take(Case::Append { units, page_len: 18, region: vec![byte; 40], calls: calls.clone() });
            }
        }
    }
}
