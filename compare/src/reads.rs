//! How many reads of its region a recovery has made. The Rust has no such number: its flash counts what it is asked. In
//! here are short inputs for it, the costliest regions and long tails, and what a step's reads can show.

use crate::bytes::{self, ALIGNS};
use crate::model::*;

const HEADER: usize = 12;
/// More reads than 16 bits hold.
const MANY: usize = 70_000;

/// Hands each case to `take`, always in the same order. They come behind the other short inputs, and the fixed list
/// takes none of them.
pub fn each(take: &mut dyn FnMut(Case)) {
    costliest_regions(take);
    to_their_end(take);
    long_tails(take);
}

/// A region of so many bytes whose recovery makes the most reads: shortest records, and 0xFF behind the last.
pub fn costliest(align: u16, len: usize) -> Vec<u8> {
    let record = bytes::sealed(&bytes::frame(1, 6, 0, &[]), align);
    let mut region = record.repeat(len / record.len());
    region.resize(len, 0xFF);
    region
}

fn all_units() -> impl Iterator<Item = Units> {
    ALIGNS.into_iter().flat_map(|program| {
        let reads = ALIGNS.into_iter().filter(move |read| *read <= program);
        reads.map(move |read| Units { program, read })
    })
}

/// All of their lengths up to three records, through a page of just the region and up to two bytes more.
fn costliest_regions(take: &mut dyn FnMut(Case)) {
    for units in all_units() {
        let read = usize::from(units.read);
        for len in (read..=3 * bytes::record_len(0, units.program)).step_by(read) {
            let region = costliest(units.program, len);
            take(Case::Recovery { units, held: len, page_len: len + len % 3, region });
        }
    }
}

/// Regions of whole records, through a page of one, by a state of the region's length and by one of another. There are
/// so many of either that a short run too takes one.
fn to_their_end(take: &mut dyn FnMut(Case)) {
    for other in [0, 1] {
        for (units, records) in all_units().flat_map(|units| (1..=12).map(move |records| (units, records))) {
            let page_len = bytes::record_len(0, units.program);
            let region = costliest(units.program, records * page_len);
            let held = region.len() + other * usize::from(units.read);
            take(Case::Recovery { units, held, page_len, region });
        }
    }
}

/// Erased regions read by pages of about a header, up to more than 65,535 of them.
fn long_tails(take: &mut dyn FnMut(Case)) {
    for read in [1, 2, 4] {
        for page_len in HEADER..HEADER + 16 {
            let len = MANY * (page_len - page_len % usize::from(read));
            let units = Units { program: 4, read };
            take(Case::Recovery { units, held: len, page_len, region: vec![0xFF; len] });
        }
    }
}

/// What a step shows by the reads that it made.
pub const SHOWN: [&str; 11] = [
    "2: a record found",
    "more: others skipped before",
    "0: the region is read to its end",
    "1: a tail shorter than a header",
    "2: a tail of one page",
    "more: a tail of several pages",
    "0: the header's refused with 3",
    "1: the record's refused with 3",
    "any: refused past skipped ones",
    "0: a region of another length",
    "0: it had ended before",
];

/// How often that came about in an answer, by the order of `SHOWN`.
pub fn shown(case: &Case, answer: &Answer) -> [u64; SHOWN.len()] {
    let mut counts = [0; SHOWN.len()];
    let (Case::Recovery { region, .. }, Answer::Recovery(steps)) = (case, answer) else { return counts };
    let (mut offset, mut reads, mut ending) = (0, 0, OPEN);
    for step in steps {
        // A copy with a fault may count downwards.
        let made = step.reads.wrapping_sub(reads);
        let rest = region.len().saturating_sub(step.offset as usize);
        let place = if ending == OPEN { place(step, made, step.offset != offset, rest) } else { Some(10) };
        if let Some(place) = place {
            counts[place] += 1;
        }
        (offset, reads, ending) = (step.offset, step.reads, step.ending);
    }
    counts
}

/// The place in `SHOWN` of a step of a recovery that had not ended; `rest` is how many bytes of the region are behind
/// where it stands now.
fn place(step: &RecoveryStep, made: u64, has_moved: bool, rest: usize) -> Option<usize> {
    let number = step.outcome.refused().map_or(0, |refused| refused.number);
    // A skipped record has two reads, as a found one.
    match (step.outcome, number, made) {
        (Outcome::Found(_), _, 2) => Some(0),
        (Outcome::Found(_), ..) => Some(1),
        (_, 2, _) => Some(9),
        (_, 3, _) if made.is_multiple_of(2) => Some(6),
        (_, 3, _) => Some(7),
        (Outcome::Refused(_), ..) if has_moved => Some(8),
        _ if has_moved => None,
        (Outcome::Ended, _, 0) => Some(2),
        (_, _, 1) if rest < HEADER => Some(3),
        (Outcome::Ended, _, 2) => Some(4),
        (_, _, 3..) => Some(5),
        _ => None,
    }
}

#[cfg(test)]
mod tests {
    use super::*;
    use crate::theirs::Theirs;

    /// The reads after each step, up to the one that ends.
    fn reads(units: Units, page_len: usize, region: &[u8]) -> Vec<u64> {
        let case = Case::Recovery { units, held: region.len(), page_len, region: region.to_vec() };
        let Answer::Recovery(steps) = Theirs.answer(&case) else { panic!("a recovery is not accepted") };
        let all: Vec<u64> = steps.iter().map(|step| step.reads).collect();
        let (reads, past) = all.split_at(all.len() - STEPS_PAST_THE_END);
        assert!(past.iter().all(|after| after == &reads[reads.len() - 1]));
        reads.to_vec()
    }

    #[test]
    fn the_rust_asks_its_flash_for_so_many_reads() {
        let units = Units { program: 4, read: 4 };
        // A header, then four pages.
        assert_eq!(reads(units, 13, &[0xFF; 48]), [5]);
        assert_eq!(reads(units, 11, &[0xFF; 48]), [0]);
        assert_eq!(reads(units, 11, &[0xFF; 8]), [1]);
        let mut region = bytes::unsealed(&bytes::frame(1, 6, 7, &[]), 4);
        region.extend(bytes::sealed(&bytes::frame(1, 6, 7, &[]), 4));
        assert_eq!(reads(units, 20, &region), [4, 4]);
        assert_eq!(reads(units, 16, &region), [1]);
        region.resize(60, 0xFF);
        region[59] = 0;
        assert_eq!(reads(units, 20, &region), [4, 6]);
    }

    #[test]
    fn the_costliest_regions_take_the_rust_as_many_reads_as_the_header_says() {
        let mut regions = 0;
        each(&mut |case| {
            let Case::Recovery { units, page_len, region, .. } = case else { panic!("all are recoveries") };
            if page_len < region.len() {
                return;
            }
            let record = bytes::record_len(0, units.program);
            let rest = [0, 1, 2][usize::from(region.len() % record > 0) + usize::from(region.len() % record >= HEADER)];
            let most = 2 * (region.len() / record) as u64 + rest;
            assert_eq!(reads(units, page_len, &region).last(), Some(&most));
            regions += 1;
        });
        assert!(regions > 5_000);
    }
}
