//! The fixed list: some thousands of cases with the oracle's answers, as bytes that a program without this driver can
//! replay. Nothing in it is taken from our side.
//!
//! A case is its length (u16), then an op, the op's arguments and the expected answer; all numbers little-endian.

use crate::model::*;
use crate::theirs::Theirs;
use crate::{courses, exhaustive, generate, shapes};
use std::collections::HashMap;

const SEED: u64 = 1662;
const CASE_LIMIT: usize = 4_000;
const TOTAL_LIMIT: usize = 700_000;
/// How many recoveries, scans and append lists are made to a shape.
const SHAPED: [u64; 3] = [345, 322, 231];
/// How often a feature is taken from long cases, and how many cases of each op there are in the end.
const PER_FEATURE: usize = 1;
const QUOTAS: [usize; 7] = [0, 300, 480, 940, 520, 540, 270];
/// Past the first of each feature only short cases of each op are taken.
const SHORT: [usize; 7] = [0, 120, 150, 150, 300, 200, 450];

/// Something that a case shows: its op, what it is, and which.
type Feature = (u8, &'static str, u32);

/// The list, and how many cases of each op it holds.
pub fn list() -> (Vec<u8>, [usize; 7]) {
    let mut list = List::default();
    for (count, shaped) in SHAPED.into_iter().zip([shapes::recovery, shapes::scan, courses::append]) {
        for number in 0..count {
            list.offer(shaped(SEED, number), true);
        }
    }
    let mut number = 0_u64;
    exhaustive::each(&mut |case| {
        number += 1;
        // A thin spread of the short inputs.
        if number.is_multiple_of(997) {
            list.offer(case, false);
        }
    });
    for number in 0..400_000 {
        list.offer(generate::case(SEED, number), false);
    }
    (list.bytes, list.counts)
}

#[derive(Default)]
struct List {
    bytes: Vec<u8>,
    counts: [usize; 7],
    seen: HashMap<Feature, usize>,
}

impl List {
    fn times(&self, feature: &Feature) -> usize {
        self.seen.get(feature).copied().unwrap_or(0)
    }

    /// Takes a case that is wanted or shows something seen too seldom, or a short one while its op's quota lasts.
    fn offer(&mut self, case: Case, wanted: bool) {
        let case = trimmed(case);
        let Some((op, arguments)) = question(&case) else { return };
        let answer = Theirs.answer(&case);
        let mut whole = vec![op];
        whole.extend(arguments);
        reply(&mut whole, &answer);
        if whole.len() > CASE_LIMIT || self.bytes.len() + whole.len() + 2 > TOTAL_LIMIT {
            return;
        }
        let features = features(op, &case, &answer);
        let rare = features.iter().any(|feature| self.times(feature) < PER_FEATURE);
        let quota = QUOTAS[usize::from(op)];
        // No refusal takes more than its share of the short ones.
        let often =
            features.iter().any(|feature| matches!(feature, (_, "refused", 1..)) && self.times(feature) > quota / 7);
        let count = &mut self.counts[usize::from(op)];
        if !wanted && !rare && (often || whole.len() > SHORT[usize::from(op)] || *count >= quota) {
            return;
        }
        *count += 1;
        for feature in features {
            *self.seen.entry(feature).or_default() += 1;
        }
        self.bytes.extend((whole.len() as u16).to_le_bytes());
        self.bytes.extend(whole);
    }
}

/// The numbers that a kind lacks are 0 in the list.
fn trimmed(mut case: Case) -> Case {
    match &mut case {
        Case::Encode { record, .. } => *record = record.trimmed(),
        Case::Append { calls, .. } => {
            for call in calls {
                if let Call::Stage(record, _) = call {
                    *record = record.trimmed();
                }
            }
        }
        _ => {}
    }
    case
}

/// What a case shows: its units, and each refusal, ending and kind in its answer.
fn features(op: u8, case: &Case, answer: &Answer) -> Vec<Feature> {
    let mut features = Vec::new();
    match case {
        Case::Encode { align, record, .. } => {
            features.extend([("a", u32::from(*align)), ("kind", u32::from(record.kind) * 512 + u32::from(*align))]);
        }
        Case::Scan { align, .. } => features.push(("a", u32::from(*align))),
        Case::Recovery { units, .. } | Case::Append { units, .. } => {
            features.push(("a and r", u32::from(units.program) * 512 + u32::from(units.read)));
        }
        _ => {}
    }
    let refusal = |refused: Option<&Refused>| ("refused", refused.map_or(0, |refused| u32::from(refused.number)));
    let outcomes = |outcome: &Outcome| match outcome {
        Outcome::Found(found) => ("found", u32::from(found.record.kind)),
        Outcome::Refused(refused) => refusal(Some(refused)),
        Outcome::Ended => refusal(None),
    };
    match answer {
        Answer::Encode { encode, .. } => features.push(refusal(encode.as_ref().err())),
        Answer::Decode { decoded: Ok(decoded), .. } => features.push(("found", u32::from(decoded.record.kind.min(12)))),
        Answer::Decode { decoded, .. } => features.push(refusal(decoded.as_ref().err())),
        Answer::Recovery(steps) => {
            features.extend(steps.iter().map(|step| outcomes(&step.outcome)));
            features.extend(steps.last().map(|step| ("ending", u32::from(step.ending))));
            features.push(("steps", steps.len() as u32));
        }
        Answer::Scan(steps) => {
            features.extend(steps.iter().map(|step| outcomes(&step.outcome)));
            features.push(("steps", steps.len() as u32));
        }
        Answer::Append(after) => {
            features.extend(after.iter().map(|after| refusal(after.refused.as_ref())));
            features.push(("steps", after.len() as u32));
        }
        _ => {}
    }
    features.into_iter().map(|(name, value)| (op, name, value)).collect()
}

fn put_bytes(out: &mut Vec<u8>, bytes: &[u8]) -> Option<()> {
    out.extend(u16::try_from(bytes.len()).ok()?.to_le_bytes());
    out.extend_from_slice(bytes);
    Some(())
}

fn put_record(out: &mut Vec<u8>, record: &Record) {
    out.push(record.kind);
    out.extend(record.seq.to_le_bytes());
    for number in [record.workflow_kind, record.workflow_version, record.activity, record.input_len] {
        out.extend(number.to_le_bytes());
    }
    out.extend(record.input_crc.to_le_bytes());
    out.push(record.clock_kind);
    out.extend(record.deadline.to_le_bytes());
    out.extend(record.armed_at.to_le_bytes());
    out.extend(record.gate.to_le_bytes());
    out.extend(record.version.to_le_bytes());
}

fn put_refused(out: &mut Vec<u8>, refused: Refused) {
    out.push(refused.number);
    put_u32(out, refused.needed);
    put_u32(out, refused.available);
}

fn put_u32(out: &mut Vec<u8>, number: u32) {
    out.extend(number.to_le_bytes());
}

fn put_length(out: &mut Vec<u8>, length: &Length) {
    put_refused(out, length.err().unwrap_or_default());
    put_u32(out, length.unwrap_or(0) as u32);
}

fn put_found(out: &mut Vec<u8>, record: &Record, free: Part) {
    put_record(out, record);
    put_u32(out, free.place as u32);
    put_u32(out, free.len as u32);
}

fn put_outcome(out: &mut Vec<u8>, outcome: &Outcome) {
    match outcome {
        Outcome::Found(found) => {
            out.push(1);
            put_u32(out, found.offset as u32);
            put_found(out, &found.record, found.free);
        }
        Outcome::Ended => out.push(2),
        Outcome::Refused(refused) => {
            out.push(3);
            put_refused(out, *refused);
        }
    }
}

/// The Rust's four counts of 32 bits.
fn put_written(out: &mut Vec<u8>, written: &Written) {
    for count in [written.payload_bytes, written.programmed_bytes, written.program_operations, written.barriers] {
        put_u32(out, count as u32);
    }
}

fn put_call(out: &mut Vec<u8>, call: &Call) -> Option<()> {
    match call {
        Call::Open => out.push(0),
        Call::Stage(record, free) => {
            out.push(1);
            put_record(out, record);
            put_bytes(out, free)?;
        }
        Call::OpenWith(_) | Call::StageElsewhere(..) | Call::Foreign { .. } => return None,
        Call::Barrier => out.push(2),
        Call::Commit => out.push(3),
    }
    Some(())
}

/// The op and its arguments; none where the list has no op for the case or no room for a length.
fn question(case: &Case) -> Option<(u8, Vec<u8>)> {
    let mut out = Vec::new();
    let op = match case {
        Case::Checks { bytes } => {
            put_bytes(&mut out, bytes)?;
            1
        }
        Case::Encode { align, record, free, out_len } => {
            out.extend(align.to_le_bytes());
            put_record(&mut out, record);
            put_bytes(&mut out, free)?;
            out.extend(u16::try_from(*out_len).ok()?.to_le_bytes());
            2
        }
        Case::Decode { bytes } => {
            put_bytes(&mut out, bytes)?;
            3
        }
        Case::Recovery { units, held, page_len, region } if *held == region.len() => {
            put_place(&mut out, *units, *page_len, region)?;
            4
        }
        Case::Scan { align, journal } => {
            out.extend(align.to_le_bytes());
            put_bytes(&mut out, journal)?;
            5
        }
        Case::Append { units, page_len, region, calls } => {
            put_place(&mut out, *units, *page_len, region)?;
            out.push(u8::try_from(calls.len()).ok()?);
            for call in calls {
                put_call(&mut out, call)?;
            }
            6
        }
        _ => return None,
    };
    Some((op, out))
}

fn put_place(out: &mut Vec<u8>, units: Units, page_len: usize, region: &[u8]) -> Option<()> {
    out.extend(units.program.to_le_bytes());
    out.extend(units.read.to_le_bytes());
    out.extend(u16::try_from(page_len).ok()?.to_le_bytes());
    put_bytes(out, region)
}

fn reply(out: &mut Vec<u8>, answer: &Answer) {
    match answer {
        Answer::Checks { header, frame } => {
            out.extend(header.to_le_bytes());
            put_u32(out, *frame);
        }
        Answer::Encode { encoded_len, body_len, encode, out: written, .. } => {
            for length in [encoded_len, body_len, encode] {
                put_length(out, length);
            }
            out.extend_from_slice(written);
        }
        Answer::Decode { decoded, .. } => put_decoded(out, decoded),
        Answer::Recovery(steps) => {
            for step in upto_the_end(steps, |step| &step.outcome) {
                put_outcome(out, &step.outcome);
                put_u32(out, step.offset);
                out.push(step.ending);
                out.extend_from_slice(&step.page);
            }
        }
        Answer::Scan(steps) => {
            for step in upto_the_end(steps, |step| &step.outcome) {
                put_outcome(out, &step.outcome);
                put_u32(out, step.offset as u32);
            }
        }
        Answer::Append(after) => put_after(out, after),
        _ => {}
    }
}

/// The steps up to and including the first that finds no record.
fn upto_the_end<S>(steps: &[S], outcome: impl Fn(&S) -> &Outcome) -> &[S] {
    let found = steps.iter().take_while(|step| matches!(outcome(step), Outcome::Found(_))).count();
    &steps[..steps.len().min(found + 1)]
}

fn put_decoded(out: &mut Vec<u8>, decoded: &Result<Decoded, Refused>) {
    put_refused(out, decoded.err().unwrap_or_default());
    if let Ok(decoded) = decoded {
        out.push(u8::from(decoded.known));
        put_found(out, &decoded.record, decoded.free);
        put_u32(out, decoded.frame_len as u32);
        put_u32(out, decoded.frame_crc);
        out.push(decoded.format_version);
    }
}

fn put_after(out: &mut Vec<u8>, after: &[AfterCall]) {
    for call in after {
        put_refused(out, call.refused.unwrap_or_default());
        if let Some(written) = &call.committed {
            put_written(out, written);
        }
    }
    let Some(last) = after.last() else { return };
    out.push(u8::from(last.journal.is_some()));
    if let Some(journal) = &last.journal {
        put_u32(out, journal.offset);
        put_written(out, &journal.written);
    }
    out.extend_from_slice(&last.region);
    out.extend_from_slice(&last.page);
}
