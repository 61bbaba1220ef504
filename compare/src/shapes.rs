//! Regions of a chosen shape, for the fixed list: so many records that are found, skipped ones before, between and
//! behind them, then one of the ways in which a region can go on. Random regions are seldom so long and so whole.

use crate::bytes;
use crate::generate::{fit, fixed_len, seq, tear};
use crate::model::*;
use crate::rng::Rng;

/// What stands behind the leading records.
#[derive(Clone, Copy, PartialEq, Eq)]
enum Last {
    Nothing,
    Erased,
    ShortErased,
    ShortProgrammed,
    BitInHeader,
    BitBehindHeader,
    RecordBehindHole,
    TornSlot,
    BitInSlot,
    BitMissingFromSeal,
    SealWithoutAnd,
    SpoiltPaddingErasedSlot,
    OtherKindUnsealed,
    UnknownSealed,
    UnknownUnsealed,
    HeaderCheckWrong,
    HeaderOfChance,
    FirstBytesWrong,
    VersionWrong,
    FrameCheckWrong,
    PayloadWrong,
    CutShort,
    WrongAndCutShort,
}

const LASTS: [Last; 23] = [
    Last::Nothing,
    Last::Erased,
    Last::ShortErased,
    Last::ShortProgrammed,
    Last::BitInHeader,
    Last::BitBehindHeader,
    Last::RecordBehindHole,
    Last::TornSlot,
    Last::BitInSlot,
    Last::BitMissingFromSeal,
    Last::SealWithoutAnd,
    Last::SpoiltPaddingErasedSlot,
    Last::OtherKindUnsealed,
    Last::UnknownSealed,
    Last::UnknownUnsealed,
    Last::HeaderCheckWrong,
    Last::HeaderOfChance,
    Last::FirstBytesWrong,
    Last::VersionWrong,
    Last::FrameCheckWrong,
    Last::PayloadWrong,
    Last::CutShort,
    Last::WrongAndCutShort,
];

/// The program units. A record under a large one takes much of the list, so those come once in so many cases.
const SMALL: [u16; 5] = [1, 2, 4, 8, 16];
const LARGE: [u16; 6] = [32, 32, 64, 64, 128, 256];
const LARGE_ONE_IN: usize = 9;
/// How many records are found before the last one, in turn.
const FOUND: [usize; 15] = [2, 1, 3, 0, 2, 4, 1, 5, 2, 6, 3, 8, 1, 7, 2];
const SKIPPED: [u8; 3] = [3, 4, 6];
const UNKNOWN: [u8; 5] = [0, 10, 11, 0x80, 255];

/// A recovery. Its number chooses the shape and how many records are found before it.
pub fn recovery(seed: u64, number: u64) -> Case {
    let mut rng = Rng::for_case(seed, number);
    let last = LASTS[number as usize % LASTS.len()];
    let mut units = units(&mut rng);
    if matches!(last, Last::ShortErased | Last::ShortProgrammed) {
        units.read = units.read.min(4);
    }
    let region = region(&mut rng, units, last, number as usize / LASTS.len());
    Case::Recovery { units, held: region.len(), page_len: page_len(&mut rng, &region, units), region }
}

/// A scan, chosen as a recovery is; mostly over the same bytes, so that the two stand side by side in the list.
pub fn scan(seed: u64, number: u64) -> Case {
    let mut rng = Rng::for_case(seed, number);
    let units = Units { read: 1, ..units(&mut rng) };
    let last = LASTS[number as usize % LASTS.len()];
    Case::Scan { align: units.program, journal: region(&mut rng, units, last, number as usize / LASTS.len()) }
}

/// Units that the Rust accepts: r at most a.
pub fn units(rng: &mut Rng) -> Units {
    let program = if rng.one_in(LARGE_ONE_IN) { rng.pick(&LARGE) } else { rng.pick(&SMALL) };
    Units { program, read: program >> rng.below(program.ilog2() as usize + 1) }
}

fn region(rng: &mut Rng, units: Units, last: Last, turn: usize) -> Vec<u8> {
    let most = match units.program {
        ..16 => 8,
        16 => 5,
        32 => 3,
        _ => 1,
    };
    let found = FOUND[turn % FOUND.len()].min(most);
    let mut region = leading(rng, units.program, found);
    region.extend(ending(rng, units, last));
    fit(&mut region, units.read);
    region
}

/// So many records that are found, with skipped ones in places, alone and in chains.
pub fn leading(rng: &mut Rng, align: u16, found: usize) -> Vec<u8> {
    let mut region = Vec::new();
    for _ in 0..found {
        if rng.one_in(4) {
            region.extend(skipped(rng, align));
        }
        let frame = any_frame(rng);
        let mut record = bytes::sealed(&frame, align);
        if rng.one_in(5) {
            spoil_padding(rng, &mut record, frame.len(), align);
        }
        region.extend(record);
    }
    if rng.one_in(4) {
        region.extend(skipped(rng, align));
    }
    region
}

/// One to three records that recovery passes over.
fn skipped(rng: &mut Rng, align: u16) -> Vec<u8> {
    let count = if align > 8 { 1 } else { rng.between(1, 3) };
    (0..count).flat_map(|_| bytes::unsealed(&frame_of(rng, &SKIPPED), align)).collect()
}

/// Changes a byte between the frame and its slot, where there is one.
fn spoil_padding(rng: &mut Rng, record: &mut [u8], frame_len: usize, align: u16) {
    let slot = record.len() - usize::from(align);
    if slot > frame_len {
        record[rng.between(frame_len, slot - 1)] &= !(1 << rng.below(8));
    }
}

fn any_frame(rng: &mut Rng) -> Vec<u8> {
    frame_of(rng, &[1, 2, 3, 4, 5, 6, 7, 8, 9])
}

/// A good frame of one of these kinds, mostly short.
pub fn frame_of(rng: &mut Rng, kinds: &[u8]) -> Vec<u8> {
    let kind = rng.pick(kinds);
    let seq = match kind {
        1 | 7 | 8 => 0,
        _ if rng.one_in(4) => u32::MAX,
        _ => seq(rng),
    };
    let limit = if rng.one_in(16) { 40 } else { 7 };
    let free = if matches!(kind, 2 | 5 | 6 | 9) { 0 } else { rng.below(limit) };
    let mut payload = rng.bytes(fixed_len(kind) + free);
    if kind == 5 {
        payload[0] = rng.between(1, 2) as u8;
    }
    bytes::frame(1, kind, seq, &payload)
}

/// The bytes behind the leading records, and often something behind those, which must not be looked at.
fn ending(rng: &mut Rng, units: Units, last: Last) -> Vec<u8> {
    let align = units.program;
    let mut bytes = match last {
        Last::Nothing => return Vec::new(),
        Last::Erased => return vec![0xFF; bytes::round_up(12, units.read) + rng.below(40)],
        Last::ShortErased | Last::ShortProgrammed => return short_tail(rng, units, last),
        Last::CutShort | Last::WrongAndCutShort => return cut_short(rng, units, last),
        Last::BitInHeader | Last::BitBehindHeader | Last::RecordBehindHole => hole(rng, align, last),
        Last::TornSlot | Last::BitInSlot | Last::BitMissingFromSeal | Last::SealWithoutAnd => {
            bad_slot(rng, align, last)
        }
        Last::SpoiltPaddingErasedSlot => {
            let frame = frame_of(rng, &SKIPPED);
            let mut record = bytes::unsealed(&frame, align);
            spoil_padding(rng, &mut record, frame.len(), align);
            record
        }
        Last::OtherKindUnsealed => bytes::unsealed(&frame_of(rng, &[1, 2, 5, 7, 8, 9]), align),
        Last::UnknownSealed => bytes::sealed(&frame_of(rng, &UNKNOWN), align),
        Last::UnknownUnsealed => bytes::unsealed(&frame_of(rng, &UNKNOWN), align),
        _ => {
            let frame = bad_frame(rng, last);
            if rng.one_in(3) { bytes::unsealed(&frame, align) } else { bytes::sealed(&frame, align) }
        }
    };
    if rng.one_in(3) {
        bytes.extend(bytes::sealed(&any_frame(rng), align));
    }
    bytes
}

/// One to eleven bytes, as far as the read unit allows, erased or with one bit programmed.
fn short_tail(rng: &mut Rng, units: Units, last: Last) -> Vec<u8> {
    let read = usize::from(units.read);
    let mut tail = vec![0xFF; rng.between(1, 11 / read) * read];
    if last == Last::ShortProgrammed {
        clear_bit(rng, &mut tail);
    }
    tail
}

fn clear_bit(rng: &mut Rng, bytes: &mut [u8]) {
    bytes[rng.below(bytes.len())] &= !(1 << rng.below(8));
}

/// Erased bytes that do not go on to the end of the region.
fn hole(rng: &mut Rng, align: u16, last: Last) -> Vec<u8> {
    let mut bytes = vec![0xFF; 13 + rng.below(30)];
    match last {
        Last::BitInHeader => clear_bit(rng, &mut bytes[..12]),
        Last::BitBehindHeader => clear_bit(rng, &mut bytes[12..]),
        _ => bytes.extend(bytes::sealed(&any_frame(rng), align)),
    }
    bytes
}

/// A record that would be skipped, were its slot wholly erased.
fn bad_slot(rng: &mut Rng, align: u16, last: Last) -> Vec<u8> {
    let frame = frame_of(rng, &SKIPPED);
    let mut slot = bytes::seal(&frame, align);
    match last {
        Last::TornSlot => tear(rng, &mut slot),
        Last::BitInSlot => {
            slot.fill(0xFF);
            clear_bit(rng, &mut slot);
        }
        Last::BitMissingFromSeal => {
            // The highest bit of a seal's byte is 0, so there is one to choose.
            let at = rng.below(slot.len());
            let missing: Vec<u8> = (0..8).filter(|bit| slot[at] >> bit & 1 == 0).collect();
            slot[at] |= 1 << rng.pick(&missing);
        }
        _ => {
            let check = &frame[frame.len() - 4..];
            slot.iter_mut().enumerate().for_each(|(at, byte)| *byte = check[at % 4]);
        }
    }
    bytes::record(&frame, align, &slot)
}

/// A frame with one thing wrong; all else agrees, as far as it can.
fn bad_frame(rng: &mut Rng, last: Last) -> Vec<u8> {
    let mut frame = any_frame(rng);
    match last {
        Last::HeaderCheckWrong => frame[rng.below(12)] ^= 1 << rng.below(8),
        Last::HeaderOfChance => {
            // Any header that its check agrees with; its length field has little to do with what follows.
            let header = rng.bytes(7);
            frame[3..10].copy_from_slice(&header);
            frame[9] &= rng.pick(&[0, 0, 1, 0xFF]);
            frame[8] &= 0x1F;
            bytes::repair_header(&mut frame);
        }
        Last::FirstBytesWrong => {
            frame[rng.below(2)] ^= 1 << rng.below(8);
            bytes::repair_header(&mut frame);
            bytes::repair_frame(&mut frame);
        }
        Last::VersionWrong => {
            frame[2] = rng.pick(&[0, 2, 3, 0x81, 255]);
            bytes::repair_header(&mut frame);
            bytes::repair_frame(&mut frame);
        }
        Last::FrameCheckWrong => {
            let at = rng.between(12, frame.len() - 1);
            frame[at] ^= 1 << rng.below(8);
        }
        _ => return wrong_payload(rng),
    }
    frame
}

/// A frame whose checks agree and whose payload or sequence is not its kind's.
fn wrong_payload(rng: &mut Rng) -> Vec<u8> {
    let (kind, seq, payload): (u8, u32, &[u8]) = match rng.below(9) {
        0 => (1, 1, &[1, 0, 2, 0]),
        1 => (7, u32::MAX, &[]),
        2 => (8, 0x100, &[5]),
        3 => (1, 0, &[1, 0, 2]),
        4 => (2, 3, &[1, 0, 2, 0, 9, 9, 9]),
        5 => (5, 3, &[0, 1, 1, 1, 1, 1, 1, 1, 1, 2, 2, 2, 2, 2, 2, 2, 2]),
        6 => (5, 3, &[3, 1, 1, 1, 1, 1, 1, 1, 1, 2, 2, 2, 2, 2, 2, 2, 2]),
        7 => (6, 3, &[0]),
        _ => (9, 3, &[1, 0, 2, 0, 0]),
    };
    bytes::frame(1, kind, seq, payload)
}

/// A record of which some read units are missing at the end of the region; a bad one shows that a scan decodes before
/// it looks at the length.
fn cut_short(rng: &mut Rng, units: Units, last: Last) -> Vec<u8> {
    let frame = match last {
        Last::CutShort => any_frame(rng),
        _ if rng.one_in(2) => bad_frame(rng, Last::FrameCheckWrong),
        _ => wrong_payload(rng),
    };
    let mut record = bytes::sealed(&frame, units.program);
    let read = usize::from(units.read);
    let most = if rng.one_in(2) { record.len() - 1 } else { usize::from(units.program) };
    let missing = if rng.one_in(3) { read } else { rng.between(1, (most / read).max(1)) * read };
    record.truncate(record.len() - missing);
    record
}

/// A page of just the length that the longest record takes, most often.
fn page_len(rng: &mut Rng, region: &[u8], units: Units) -> usize {
    let longest = bytes::walk(region, units.program).iter().map(|[at, .., end]| end - at).max().unwrap_or(0);
    let header = bytes::round_up(12, units.read);
    let enough = longest.max(header);
    match rng.below(24) {
        0 => rng.below(header),
        1 => header + rng.below(usize::from(units.read)),
        2 => enough - 1,
        3 => rng.between(header, enough),
        4 => enough + rng.below(40),
        _ => enough + rng.below(usize::from(units.read.min(4))),
    }
}
