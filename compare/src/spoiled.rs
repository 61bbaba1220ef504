//! Random cases about the place in a refusal: tails that are spoiled, near and some pages away; records with a byte
//! behind their frame that keeps them from being skipped; lists in which something else writes where the next record is
//! to go. They have random numbers of their own and come behind the others, so that those stay as they are.

use crate::bytes;
use crate::generate::{self, expressible, fit, fixed_len, units};
use crate::model::*;
use crate::rng::Rng;
use crate::shapes;

/// Parts their random numbers from those of the other cases.
const NUMBERS: u64 = 0x51A9_0177;
const SKIPPED: [u8; 3] = [3, 4, 6];
const NOT_SKIPPED: [u8; 8] = [1, 2, 5, 7, 8, 9, 10, 255];

/// One case, from one seed and its own number.
pub fn case(seed: u64, number: u64) -> Case {
    let mut rng = Rng::for_case(seed ^ NUMBERS, number);
    let units = units(&mut rng);
    let found = rng.below(4);
    let mut region = shapes::leading(&mut rng, units.program, found);
    let least = longest(&region, units.program).max(bytes::round_up(12, units.read));
    let page_len = page_len(&mut rng, least);
    match rng.below(8) {
        0..3 => tail(&mut rng, units, page_len, &mut region),
        3..6 => unsealed(&mut rng, units.program, &mut region),
        _ => return staged(&mut rng, units, region),
    }
    fit(&mut region, units.read);
    if rng.one_in(3) {
        return Case::Scan { align: units.program, journal: region };
    }
    // A longer record than the leading ones may stand behind them.
    let page_len = page_len.max(longest(&region, units.program));
    Case::Recovery { units, held: region.len(), page_len, region }
}

fn longest(region: &[u8], align: u16) -> usize {
    bytes::walk(region, align).iter().map(|[at, .., end]| end - at).max().unwrap_or(0)
}

/// A page as small as will do, a little above that, or a large one.
fn page_len(rng: &mut Rng, least: usize) -> usize {
    match rng.below(8) {
        0 => rng.between(least, 3_000),
        1..4 => least + rng.below(70),
        _ => least,
    }
}

fn clear_bits(rng: &mut Rng, byte: &mut u8) {
    *byte = if rng.one_in(2) { *byte & !(1 << rng.below(8)) } else { rng.number() as u8 };
}

/// A tail of up to six pages, spoiled most often at the edges of what is read at once.
fn tail(rng: &mut Rng, units: Units, page_len: usize, region: &mut Vec<u8>) {
    let chunk = page_len - page_len % usize::from(units.read);
    let start = region.len();
    region.resize(start + rng.between(12, 6 * chunk), 0xFF);
    fit(region, units.read);
    let len = region.len() - start;
    for _ in 0..rng.between(1, 3) {
        let edge = chunk * rng.between(1, 6);
        let at = match rng.below(6) {
            0 => edge - 1,
            1 => edge,
            2 => rng.between(11, 13),
            3 => len - 1,
            _ => rng.below(len),
        };
        clear_bits(rng, &mut region[start + at.min(len - 1)]);
    }
}

/// A record without its seal, with some bytes written behind its frame, and most often something behind it.
fn unsealed(rng: &mut Rng, align: u16, region: &mut Vec<u8>) {
    let kinds = if rng.one_in(4) { &NOT_SKIPPED[..] } else { &SKIPPED };
    let frame = shapes::frame_of(rng, kinds);
    let mut record = bytes::unsealed(&frame, align);
    let last = record.len() - 1;
    for _ in 0..rng.between(1, 3) {
        let at = match rng.below(6) {
            0 => frame.len(),
            1 => last,
            2 => record.len() - usize::from(align),
            _ => rng.between(frame.len(), last),
        };
        clear_bits(rng, &mut record[at]);
    }
    region.extend(record);
    match rng.below(3) {
        0 => region.extend(shapes::leading(rng, align, 1)),
        1 => region.resize(region.len() + rng.below(60), 0xFF),
        _ => {}
    }
}

/// A list in which something else writes some bytes where the next record is to go, or a little behind.
fn staged(rng: &mut Rng, units: Units, mut region: Vec<u8>) -> Case {
    let limit = if rng.one_in(4) { 600 } else { 30 };
    let (record, free) = generate::record(rng, limit);
    let len = bytes::record_len(fixed_len(record.kind) + free.len(), units.program);
    let start = region.len();
    region.resize(start + len + rng.below(40), 0xFF);
    fit(&mut region, units.read);
    let mut calls = vec![Call::Open];
    for _ in 0..rng.between(1, 3) {
        let mut byte = 0xFF;
        clear_bits(rng, &mut byte);
        calls.push(Call::Foreign { at: start + rng.below(len + 4), bytes: vec![byte] });
    }
    calls.extend([Call::Stage(record, free), Call::Barrier, Call::Commit, Call::Open]);
    expressible(Case::Append { units, page_len: region.len() + rng.below(20), region, calls })
}
