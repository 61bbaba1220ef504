//! Deliberate mistakes in the places of our refusals; `faults` lists them.

use crate::bytes;
use crate::faults::bend_calls;
use crate::foreign::{is_not_erased, places};
use crate::model::*;
use crate::place::{behind_frame, first_written};
use std::ops::Range;

/// Where a recovery or a scan was refused.
struct Met<'a> {
    align: u16,
    bytes: &'a [u8],
    /// The offset before the step, and the one where reading ended.
    before: usize,
    at: usize,
    /// What is read at once.
    chunk: usize,
    refused: Refused,
}

impl Met<'_> {
    fn number(&self) -> u8 {
        self.refused.number
    }

    /// The place bent, where this refusal has one; else as it is.
    fn bent(&self, number: u8, bend: impl Fn(usize) -> Option<u32>) -> Option<u32> {
        self.refused.place.and_then(|place| if self.number() == number { bend(place as usize) } else { Some(place) })
    }

    /// Padding and slot of the record, by the length that its header gives.
    fn behind_frame(&self) -> Range<usize> {
        let payload = bytes::payload_len(&self.bytes[self.at..]).unwrap_or(0);
        self.at + 16 + payload..self.at + bytes::record_len(payload, self.align)
    }
}

/// Puts another place into each refusal of a recovery and a scan.
fn bend_places(side: &dyn Side, case: &Case, bend: impl Fn(&Met) -> Option<u32>) -> Answer {
    let mut answer = side.answer(case);
    let (align, bytes, chunk, steps): (_, _, _, Vec<_>) = match (case, &mut answer) {
        (Case::Recovery { units, page_len, region, .. }, Answer::Recovery(steps)) => {
            let steps = steps.iter_mut().map(|step| (step.offset as usize, &mut step.outcome));
            (units.program, region, page_len - page_len % usize::from(units.read), steps.collect())
        }
        (Case::Scan { align, journal }, Answer::Scan(steps)) => {
            let steps = steps.iter_mut().map(|step| (step.offset, &mut step.outcome));
            (*align, journal, journal.len(), steps.collect())
        }
        _ => return answer,
    };
    let mut before = 0;
    for (at, outcome) in steps {
        if let Outcome::Refused(refused) = outcome {
            refused.place = bend(&Met { align, bytes, before, at, chunk, refused: *refused });
        }
        before = at;
    }
    answer
}

pub fn none_in_recovery(side: &dyn Side, case: &Case) -> Answer {
    match case {
        Case::Recovery { .. } => bend_places(side, case, |_| None),
        _ => side.answer(case),
    }
}

pub fn none_in_scan(side: &dyn Side, case: &Case) -> Answer {
    match case {
        Case::Scan { .. } => bend_places(side, case, |_| None),
        _ => side.answer(case),
    }
}

pub fn from_tail(side: &dyn Side, case: &Case) -> Answer {
    bend_places(side, case, |met| met.bent(9, |place| Some((place - met.at) as u32)))
}

pub fn within_chunk(side: &dyn Side, case: &Case) -> Answer {
    bend_places(side, case, |met| met.bent(9, |place| Some((met.at + (place - met.at) % met.chunk) as u32)))
}

fn last_written(bytes: &[u8], range: Range<usize>) -> Option<u32> {
    range.rev().find(|at| bytes[*at] != 0xFF).map(|at| at as u32)
}

pub fn last_in_tail(side: &dyn Side, case: &Case) -> Answer {
    bend_places(side, case, |met| met.bent(9, |place| last_written(met.bytes, place..met.bytes.len())))
}

pub fn at_header(side: &dyn Side, case: &Case) -> Answer {
    bend_places(side, case, |met| match met.number() {
        9 => first_written(met.bytes, met.at..met.bytes.len()),
        _ => met.refused.place,
    })
}

pub fn at_short_tail(side: &dyn Side, case: &Case) -> Answer {
    bend_places(side, case, |met| match met.number() {
        4 if met.bytes.len() - met.at < 12 => first_written(met.bytes, met.at..met.bytes.len()),
        _ => met.refused.place,
    })
}

pub fn from_record(side: &dyn Side, case: &Case) -> Answer {
    bend_places(side, case, |met| met.bent(10, |place| Some((place - met.at) as u32)))
}

pub fn last_behind_frame(side: &dyn Side, case: &Case) -> Answer {
    bend_places(side, case, |met| met.bent(10, |_| last_written(met.bytes, met.behind_frame())))
}

pub fn in_frame(side: &dyn Side, case: &Case) -> Answer {
    bend_places(side, case, |met| met.bent(10, |place| first_written(met.bytes, met.at..place + 1)))
}

pub fn in_slot(side: &dyn Side, case: &Case) -> Answer {
    bend_places(side, case, |met| {
        let end = met.behind_frame().end;
        met.bent(10, |_| first_written(met.bytes, end - usize::from(met.align)..end))
    })
}

/// A 10 of other kinds too has a place.
fn at_kinds(side: &dyn Side, case: &Case, kinds: &[u8]) -> Answer {
    bend_places(side, case, |met| match met.number() {
        10 => behind_frame(met.align, met.bytes, met.at, kinds),
        _ => met.refused.place,
    })
}

pub fn at_kind_2(side: &dyn Side, case: &Case) -> Answer {
    at_kinds(side, case, &[2, 3, 4, 6])
}

pub fn at_every_kind(side: &dyn Side, case: &Case) -> Answer {
    let kinds: Vec<u8> = (0..=255).collect();
    at_kinds(side, case, &kinds)
}

pub fn before_skipped(side: &dyn Side, case: &Case) -> Answer {
    bend_places(side, case, |met| met.refused.place.map(|place| (place as usize - met.at + met.before) as u32))
}

/// Puts another place into each of stage's 18; `bend` gets the place, the bytes that the record is to take and the
/// region.
fn bend_stages(side: &dyn Side, case: &Case, bend: fn(u32, Range<usize>, &[u8]) -> Option<u32>) -> Answer {
    let Case::Append { units, .. } = case else { return side.answer(case) };
    bend_calls(side, case, |call, after| {
        // A refused stage leaves the journal, so the record's places are those from before.
        let record = places(units.program, call, after);
        if let (true, Some(record), Some(refused)) = (is_not_erased(after), record, &mut after.refused) {
            refused.place = refused.place.and_then(|place| bend(place, record, &after.region));
        }
    })
}

pub fn none_in_stage(side: &dyn Side, case: &Case) -> Answer {
    bend_stages(side, case, |_, _, _| None)
}

pub fn from_append_offset(side: &dyn Side, case: &Case) -> Answer {
    bend_stages(side, case, |place, record, _| Some(place - record.start as u32))
}

pub fn last_in_stage(side: &dyn Side, case: &Case) -> Answer {
    bend_stages(side, case, |_, record, region| last_written(region, record))
}

pub fn at_opening(side: &dyn Side, case: &Case) -> Answer {
    let Case::Append { units, .. } = case else { return side.answer(case) };
    bend_calls(side, case, |call, after| {
        let (Call::Open, Some(refused @ Refused { number: 11, .. })) = (call, &mut after.refused) else { return };
        let (held, page_len, region) = (after.region.len(), after.page.len(), after.region.clone());
        let recovery = Case::Recovery { units: *units, held, page_len, region };
        let Answer::Recovery(steps) = side.answer(&recovery) else { return };
        refused.place = steps.iter().find_map(|step| step.outcome.refused()).and_then(|refused| refused.place);
    })
}
