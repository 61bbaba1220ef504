//! Random cases: good ones of every kind and length, and damaged copies of good ones.

use crate::bytes;
use crate::foreign::Looking;
use crate::model::*;
use crate::rng::Rng;
use crate::theirs::Theirs;

/// One case, from one seed and its own number.
pub fn case(seed: u64, number: u64) -> Case {
    let mut rng = Rng::for_case(seed, number);
    if rng.one_in(4_000) { large(&mut rng) } else { usual(&mut rng) }
}

fn usual(rng: &mut Rng) -> Case {
    let Units { program: align, .. } = units(rng);
    match rng.below(100) {
        0..8 => Case::Checks { bytes: some_bytes(rng) },
        8..12 => Case::LengthFor { payload_bytes: length_for(rng), align },
        12..30 => encode_case(rng, align),
        30..50 => Case::Decode { bytes: decode_bytes(rng) },
        50..70 => recovery_case(rng),
        70..84 => Case::Scan { align, journal: region(rng, Units { program: align, read: 1 }) },
        84..94 => append_case(rng),
        94..99 => find_case(rng),
        _ => Case::Counts {
            align,
            free_len: rng.below(300),
            doublings: (0..rng.below(40)).map(|_| !rng.one_in(5)).collect(),
        },
    }
}

/// Units that the Rust accepts: r at most a. Small ones more often, since their regions are short.
pub fn units(rng: &mut Rng) -> Units {
    let log = if rng.one_in(3) { rng.below(9) } else { rng.below(5) };
    Units { program: 1 << log, read: 1 << rng.below(log + 1) }
}

fn some_bytes(rng: &mut Rng) -> Vec<u8> {
    let len = if rng.one_in(50) { rng.below(5_000) } else { rng.below(80) };
    let mut bytes = rng.bytes(len);
    if rng.one_in(4) {
        bytes.fill(rng.pick(&[0, 0xFF, 0x57]));
    }
    bytes
}

fn length_for(rng: &mut Rng) -> usize {
    match rng.below(4) {
        0 => rng.below(65_536),
        1 => rng.between(65_500, 65_600),
        2 => rng.number() as usize,
        _ => usize::MAX - rng.below(600),
    }
}

pub fn seq(rng: &mut Rng) -> u32 {
    if rng.one_in(4) { rng.number() as u32 } else { rng.below(4) as u32 }
}

/// A record that the Rust has a form for, with anything in the numbers that its kind lacks, and its free bytes.
pub fn record(rng: &mut Rng, free_limit: usize) -> (Record, Vec<u8>) {
    let kind = rng.between(1, 9) as u8;
    let numbers = rng.number();
    let clock_kind = if rng.one_in(12) { rng.number() as u8 } else { rng.between(1, 2) as u8 };
    let record = Record {
        kind,
        seq: if matches!(kind, 1 | 7 | 8) { 0 } else { seq(rng) },
        workflow_kind: numbers as u16,
        workflow_version: (numbers >> 16) as u16,
        activity: (numbers >> 32) as u16,
        input_len: (numbers >> 48) as u16,
        input_crc: rng.number() as u32,
        clock_kind,
        deadline: rng.number(),
        armed_at: rng.number(),
        gate: (numbers >> 8) as u16,
        version: (numbers >> 24) as u16,
    };
    let len = if matches!(kind, 1 | 3 | 4 | 7 | 8) { rng.between(0, free_limit) } else { 0 };
    (record, rng.bytes(len))
}

fn encode_case(rng: &mut Rng, align: u16) -> Case {
    let limit = if rng.one_in(30) { 1_000 } else { 40 };
    let (record, free) = record(rng, limit);
    let about = bytes::record_len(free.len() + fixed_len(record.kind), align);
    let out_len = match rng.below(8) {
        0 => rng.below(about),
        1 => about - 1,
        2 | 3 => about,
        _ => about + rng.below(20),
    };
    Case::Encode { align, record, free, out_len }
}

/// The bytes of a kind's numbers in its payload.
pub fn fixed_len(kind: u8) -> usize {
    match kind {
        1 | 9 => 4,
        2 => 8,
        5 => 17,
        _ => 0,
    }
}

/// A payload that mostly fits the kind.
fn payload(rng: &mut Rng, kind: u8) -> Vec<u8> {
    let limit = if rng.one_in(20) { 300 } else { 24 };
    let len = match kind {
        _ if rng.one_in(14) => rng.below(20),
        1 => 4 + rng.below(limit),
        2 | 5 | 6 | 9 => fixed_len(kind),
        _ => rng.below(limit),
    };
    let mut payload = rng.bytes(len);
    if kind == 5
        && !rng.one_in(10)
        && let Some(clock_kind) = payload.first_mut()
    {
        *clock_kind = rng.between(1, 2) as u8;
    }
    payload
}

/// A frame whose checks agree, mostly of a known kind.
fn frame(rng: &mut Rng) -> Vec<u8> {
    let kind = match rng.below(20) {
        0 => rng.number() as u8,
        1 => rng.pick(&[0, 10, 11]),
        2..9 => rng.pick(&[3, 4, 6]),
        _ => rng.between(1, 9) as u8,
    };
    let version = if rng.one_in(40) { rng.number() as u8 } else { 1 };
    let seq = if matches!(kind, 1 | 7 | 8) && !rng.one_in(20) { 0 } else { seq(rng) };
    let payload = payload(rng, kind);
    bytes::frame(version, kind, seq, &payload)
}

fn decode_bytes(rng: &mut Rng) -> Vec<u8> {
    if rng.one_in(10) {
        let len = rng.below(60);
        return rng.bytes(len);
    }
    let mut bytes = frame(rng);
    let more = rng.below(6);
    bytes.extend(rng.bytes(more));
    if rng.one_in(2) {
        damage(rng, &mut bytes, 0, 1);
    }
    if rng.one_in(5) {
        bytes.truncate(rng.below(bytes.len() + 1));
    }
    bytes
}

/// A record as a writer, a cut or bad luck may leave it.
fn record_bytes(rng: &mut Rng, align: u16) -> Vec<u8> {
    let frame = frame(rng);
    let frame_len = frame.len();
    let mut seal = bytes::seal(&frame, align);
    match rng.below(24) {
        0..6 => return bytes::unsealed(&frame, align),
        6 => tear(rng, &mut seal),
        7 => {
            // One bit of the slot programmed and no more.
            seal.fill(0xFF);
            let at = rng.below(seal.len());
            seal[at] &= !(1 << rng.below(8));
        }
        8 => {
            // The check itself for a seal, without the AND.
            let check = &frame[frame_len - 4..];
            seal.iter_mut().enumerate().for_each(|(at, byte)| *byte = check[at % 4]);
        }
        9 => {
            // A torn body: bits of a body that were never programmed, and an erased slot.
            let mut record = bytes::unsealed(&frame, align);
            tear(rng, &mut record);
            if rng.one_in(2) {
                bytes::repair_header(&mut record);
            }
            return record;
        }
        10 => {
            // Padding that is not erased, under a good seal or an erased slot.
            let mut record = if rng.one_in(2) { bytes::sealed(&frame, align) } else { bytes::unsealed(&frame, align) };
            let slot = record.len() - usize::from(align);
            if slot > frame_len {
                record[rng.between(frame_len, slot - 1)] = rng.number() as u8;
            }
            return record;
        }
        _ => {}
    }
    bytes::record(&frame, align, &seal)
}

/// Leaves some of the bits at 1, as a cut does.
pub fn tear(rng: &mut Rng, bytes: &mut [u8]) {
    let few = rng.one_in(2);
    for byte in bytes {
        let mut bits = rng.number() as u8;
        if few {
            bits &= (rng.number() & rng.number()) as u8;
        }
        *byte |= bits;
    }
}

/// Damages bytes in one to three places; `at` is where a record begins, whose checks may be made to agree again.
fn damage(rng: &mut Rng, bytes: &mut [u8], at: usize, align: u16) {
    if bytes.is_empty() {
        return;
    }
    for _ in 0..rng.between(1, 3) {
        let place = rng.below(bytes.len());
        let end = bytes.len().min(place + rng.between(1, 30));
        match rng.below(7) {
            0 | 1 => bytes[place] ^= 1 << rng.below(8),
            2 => bytes[place] |= 1 << rng.below(8),
            3 => bytes[place] = rng.number() as u8,
            4 => bytes[place..end].fill(0xFF),
            5 => bytes[place..end].fill(0),
            _ => {
                // A header field, which the checks below may hide.
                let field = at + rng.below(10);
                if field < bytes.len() {
                    bytes[field] ^= 1 << rng.below(8);
                }
            }
        }
    }
    let Some(record) = bytes.get_mut(at..) else { return };
    if rng.one_in(2) {
        bytes::repair_header(record);
    }
    if rng.one_in(2) {
        bytes::repair_frame(record);
        if rng.one_in(2) {
            bytes::repair_seal(record, align);
        }
    }
}

/// A region of records and erased bytes, often damaged; its length is a multiple of r and at least r.
fn region(rng: &mut Rng, units: Units) -> Vec<u8> {
    let mut region = Vec::new();
    let mut starts = vec![0];
    for _ in 0..rng.below(6) {
        let record = record_bytes(rng, units.program);
        region.extend(record);
        starts.push(region.len());
    }
    let tail = rng.below(2 * usize::from(units.program) + 40);
    region.resize(region.len() + tail, 0xFF);
    match rng.below(8) {
        0 | 1 => {
            let at = rng.pick(&starts);
            damage(rng, &mut region, at, units.program);
        }
        2 => region.truncate(rng.below(region.len() + 1)),
        3 if rng.one_in(4) => {
            let len = rng.below(100);
            region = rng.bytes(len);
        }
        _ => {}
    }
    fit(&mut region, units.read);
    region
}

pub fn fit(region: &mut Vec<u8>, unit: u16) {
    let len = bytes::round_up(region.len().max(1), unit);
    region.resize(len, 0xFF);
}

/// A page from nothing to past the region, often of just the length that a record needs.
fn page_len(rng: &mut Rng, region: &[u8], units: Units) -> usize {
    let exact = bytes::walk(region, units.program).iter().map(|[at, .., end]| end - at).max().unwrap_or(0);
    match rng.below(10) {
        0 => rng.below(20),
        1 => bytes::round_up(12, units.read).saturating_sub(rng.below(2)) + rng.below(2),
        2 | 3 => (exact + rng.below(3)).saturating_sub(1),
        4 => rng.below(region.len() + 20),
        5 => exact + rng.below(usize::from(units.read) + 1),
        _ => region.len() + rng.below(30),
    }
}

fn recovery_case(rng: &mut Rng) -> Case {
    let units = units(rng);
    let region = region(rng, units);
    // Once in a while the state holds another length than the region's.
    let held = if rng.one_in(60) { region.len() + usize::from(units.read) } else { region.len() };
    Case::Recovery { units, held, page_len: page_len(rng, &region, units), region }
}

fn find_case(rng: &mut Rng) -> Case {
    let units = units(rng);
    let region = region(rng, units);
    Case::Find { units, page_len: page_len(rng, &region, units), region, seq: rng.below(4) as u32 }
}

pub fn append_case(rng: &mut Rng) -> Case {
    let units = units(rng);
    let mut region = if rng.one_in(8) { region(rng, units) } else { appendable(rng, units) };
    let room = rng.below(9 * usize::from(units.program) + 180);
    region.resize(region.len() + room, 0xFF);
    fit(&mut region, units.read);
    let page_len = match rng.below(6) {
        0 => page_len(rng, &region, units),
        1 => bytes::record_len(rng.below(20), units.program) - rng.below(2),
        _ => region.len().max(bytes::record_len(28, units.program)) + rng.below(20),
    };
    let mut calls = vec![Call::Open];
    for _ in 0..rng.below(5) {
        let (record, free) = record(rng, 24);
        if rng.one_in(20) {
            calls.push(Call::StageElsewhere(record, free.clone()));
        }
        calls.push(Call::Stage(record, free));
        match rng.below(12) {
            0 => {}
            1 => calls.push(Call::Barrier),
            2 => calls.extend([Call::Barrier, Call::Open]),
            3 => calls.push(Call::Open),
            _ => calls.extend([Call::Barrier, Call::Commit]),
        }
    }
    expressible(Case::Append { units, page_len, region, calls })
}

/// Sealed records and skipped ones: what an opening accepts.
fn appendable(rng: &mut Rng, units: Units) -> Vec<u8> {
    let mut region = Vec::new();
    for _ in 0..rng.below(3) {
        let kind = rng.pick(&[3, 4, 6, 7]);
        let payload = if kind == 6 { Vec::new() } else { payload(rng, 3) };
        let frame = bytes::frame(1, kind, 0, &payload);
        let skipped = kind != 7 && rng.one_in(2);
        region.extend(if skipped {
            bytes::unsealed(&frame, units.program)
        } else {
            bytes::sealed(&frame, units.program)
        });
    }
    region
}

/// The same list without the calls that the Rust has no form for where they stand: a barrier or a commit that is not
/// the next step, as after a stage that is refused. A refused opening is the last call.
pub fn expressible(mut case: Case) -> Case {
    loop {
        let Answer::Append(after) = Looking(&Theirs).answer(&case) else { return case };
        let Case::Append { calls, .. } = &mut case else { return case };
        let refused = after
            .iter()
            .zip(calls.iter())
            .position(|(after, call)| matches!(call, Call::Open) && after.refused.is_some());
        if let Some(at) = refused {
            calls.truncate(at + 1);
            return case;
        }
        if after.len() == calls.len() {
            return case;
        }
        calls.remove(after.len());
    }
}

/// Payloads at the limits of their length field, in regions and pages about as long as their record.
fn large(rng: &mut Rng) -> Case {
    let units = units(rng);
    let payload = rng.between(65_525, 65_535);
    let len = bytes::record_len(payload, units.program);
    let kind = rng.pick(&[3, 4, 7]);
    let free = rng.bytes(payload);
    let record = Record { kind, seq: 0, ..Record::default() };
    let frame = bytes::frame(1, kind, 0, &free);
    let mut region =
        if rng.one_in(3) { bytes::unsealed(&frame, units.program) } else { bytes::sealed(&frame, units.program) };
    let tail = if rng.one_in(3) { 0 } else { rng.below(4_000) };
    region.resize(len + tail, 0xFF);
    if rng.one_in(3) {
        damage(rng, &mut region, 0, units.program);
    }
    fit(&mut region, units.read);
    let page_len = if rng.one_in(4) { rng.below(len) } else { (len + rng.below(600)).saturating_sub(rng.below(2)) };
    match rng.below(6) {
        0 => Case::Scan { align: units.program, journal: region },
        1 => Case::Decode { bytes: region },
        2 => Case::Encode { align: units.program, record, free, out_len: (len + rng.below(3)).saturating_sub(1) },
        3 => {
            let kind = rng.pick(&[1, 3, 8]);
            let free_len = rng.between(65_531, 65_536);
            let free = rng.bytes(free_len);
            Case::Encode { align: units.program, record: Record { kind, ..record }, free, out_len: 66_100 }
        }
        4 => {
            let calls = vec![Call::Open, Call::Stage(record, free), Call::Barrier, Call::Commit];
            let mut region = vec![0xFF; len + rng.below(600) - rng.below(2)];
            fit(&mut region, units.read);
            expressible(Case::Append { units, page_len, region, calls })
        }
        _ => Case::Recovery { units, held: region.len(), page_len, region },
    }
}
