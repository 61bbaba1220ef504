//! Append lists of a chosen course, for the fixed list: one to four records appended, with stages refused before them,
//! openings between them, or an end in the middle of the last.

use crate::bytes;
use crate::generate::{expressible, fit, record};
use crate::model::*;
use crate::rng::Rng;
use crate::shapes;

#[derive(Clone, Copy, PartialEq, Eq)]
enum Course {
    Whole,
    JustFits,
    EndsStaged,
    EndsConfirmed,
    WrongClock,
    PageShort,
    NoRoom,
    JustNoRoom,
    Interrupted,
    InterruptedAndOpened,
    Opened,
}

const COURSES: [Course; 11] = [
    Course::Whole,
    Course::JustFits,
    Course::EndsStaged,
    Course::EndsConfirmed,
    Course::WrongClock,
    Course::PageShort,
    Course::NoRoom,
    Course::JustNoRoom,
    Course::Interrupted,
    Course::InterruptedAndOpened,
    Course::Opened,
];

/// What a list is made of, and the region and page that it is made for.
struct Plan {
    course: Course,
    align: u16,
    /// The records that are appended.
    records: Vec<(Record, Vec<u8>)>,
    /// Before which of them the course shows.
    at: usize,
    /// Bytes of the region behind the last of them.
    spare: usize,
    page_len: usize,
}

/// A list. Its number chooses the course and how many records are appended.
pub fn append(seed: u64, number: u64) -> Case {
    let mut rng = Rng::for_case(seed, number);
    let course = COURSES[number as usize % COURSES.len()];
    let units = shapes::units(&mut rng);
    let most = if units.program > 16 { 1 } else { 4 };
    let count = number as usize / COURSES.len() % most + 1;
    let records: Vec<_> = (0..count).map(|_| good(&mut rng)).collect();
    let found = if units.program > 8 { 0 } else { rng.below(3) };
    let mut region = shapes::leading(&mut rng, units.program, found);
    let longest = bytes::walk(&region, units.program).iter().map(|[at, .., end]| end - at).max().unwrap_or(0);
    let needed = records.iter().map(|record| len(record, units.program)).max().unwrap_or(0);
    let page_len = longest.max(needed).max(bytes::round_up(12, units.read)) + rng.below(usize::from(units.read.min(4)));
    let spare = spare(&mut rng, course, units, page_len);
    let total: usize = records.iter().map(|record| len(record, units.program)).sum();
    region.resize(region.len() + total + spare, 0xFF);
    fit(&mut region, units.read);
    let plan = Plan { course, align: units.program, at: rng.below(count), records, spare, page_len };
    expressible(Case::Append { units, page_len, calls: calls(&mut rng, &plan), region })
}

/// A short record that is not refused for its own sake.
fn good(rng: &mut Rng) -> (Record, Vec<u8>) {
    let (mut record, free) = record(rng, 5);
    record.clock_kind = rng.between(1, 2) as u8;
    if rng.one_in(4) && !matches!(record.kind, 1 | 7 | 8) {
        record.seq = u32::MAX;
    }
    (record, free)
}

fn payload_len((record, free): &(Record, Vec<u8>)) -> usize {
    crate::generate::fixed_len(record.kind) + free.len()
}

fn len(record: &(Record, Vec<u8>), align: u16) -> usize {
    bytes::record_len(payload_len(record), align)
}

/// Room behind the records: none where the last just fits, enough where a course needs some.
fn spare(rng: &mut Rng, course: Course, units: Units, page_len: usize) -> usize {
    let unit = usize::from(units.program);
    match course {
        Course::JustFits => 0,
        Course::PageShort => bytes::record_len(page_len, units.program),
        Course::Interrupted | Course::InterruptedAndOpened => bytes::record_len(6, units.program) + rng.below(unit),
        _ => rng.below(20 + unit),
    }
}

fn calls(rng: &mut Rng, plan: &Plan) -> Vec<Call> {
    let mut calls = vec![Call::Open];
    for (at, (record, free)) in plan.records.iter().enumerate() {
        if at == plan.at {
            calls.extend(before(rng, plan));
        }
        calls.push(Call::Stage(*record, free.clone()));
        let last = at + 1 == plan.records.len();
        match plan.course {
            Course::EndsStaged if last => {}
            Course::EndsConfirmed if last => calls.push(Call::Barrier),
            _ => calls.extend([Call::Barrier, Call::Commit]),
        }
    }
    match plan.course {
        Course::JustFits => {
            let (record, free) = good(rng);
            calls.push(Call::Stage(record, free));
        }
        Course::Opened | Course::Whole if rng.one_in(2) => calls.push(Call::Open),
        _ => {}
    }
    calls
}

/// What a course puts before one of its records.
fn before(rng: &mut Rng, plan: &Plan) -> Vec<Call> {
    let remaining: usize =
        plan.spare + plan.records[plan.at..].iter().map(|record| len(record, plan.align)).sum::<usize>();
    match plan.course {
        Course::WrongClock => {
            let clock_kind = rng.pick(&[0, 3, 4, 128, 255]);
            vec![Call::Stage(Record { kind: 5, seq: 1, clock_kind, ..Record::default() }, Vec::new())]
        }
        Course::PageShort => vec![free_record(rng, just_above(plan.page_len, plan.align))],
        Course::NoRoom => vec![free_record(rng, remaining)],
        Course::JustNoRoom => vec![free_record(rng, just_above(remaining, plan.align))],
        Course::Interrupted | Course::InterruptedAndOpened => interrupted(rng, plan.course),
        Course::Opened => vec![Call::Open],
        _ => Vec::new(),
    }
}

/// The shortest payload whose record is longer than that.
fn just_above(len: usize, align: u16) -> usize {
    (0..).find(|payload| bytes::record_len(*payload, align) > len).unwrap_or(0)
}

fn free_record(rng: &mut Rng, len: usize) -> Call {
    let record = Record { kind: rng.pick(&[3, 4]), seq: 2, ..Record::default() };
    Call::Stage(record, rng.bytes(len))
}

/// A stage, with its barrier or without, that no commit follows, then a stage that is refused for that. An opening
/// passes over a record of the kinds that are skipped, and is refused at another.
fn interrupted(rng: &mut Rng, course: Course) -> Vec<Call> {
    let kind = if rng.one_in(6) { 2 } else { rng.pick(&[3, 4, 6]) };
    let left = Call::Stage(Record { kind, seq: 9, ..Record::default() }, Vec::new());
    let mut calls = vec![left.clone()];
    if rng.one_in(2) {
        calls.push(Call::Barrier);
    }
    if course == Course::Interrupted || rng.one_in(3) {
        calls.push(left);
    }
    if course == Course::InterruptedAndOpened {
        calls.push(Call::Open);
    }
    calls
}
