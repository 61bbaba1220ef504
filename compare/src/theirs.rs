//! The Rust's side: the oracle's calls, with its answers put into the model's numbers.
//!
//! Open and find are not in the Rust. Open is its recovery run to the end and its journal made from that; find is the
//! latest of its recovered records that carries the sequence.

use crate::model::*;
use oracle::activity::ActivityKind;
use oracle::append::{self, AppendError, WriteAmplification};
use oracle::fcs::Fcs;
use oracle::frame::{self, ProgramAlign, Scan};
use oracle::integrity::IntegrityCheck;
use oracle::memory::Memory;
use oracle::recovery::{Ending, JournalRegion, Recovery, RecoveryError};
use oracle::storage::StableStorage;
use oracle::timer::ClockKind;
use oracle::version::GateId;
use oracle::{DecodeError, EffectSeq, RecordRef};
use std::cell::Cell;

pub struct Theirs;

/// An error of the device in memory: it has no number, and no case should meet it.
const DEVICE_ERROR: Refused = Refused::plain(255);
/// A step on another device: no case makes one.
const WRONG_DEVICE: Refused = Refused::plain(2);

impl Side for Theirs {
    fn answer(&self, case: &Case) -> Answer {
        answer(case).unwrap_or(Answer::NotAccepted)
    }
}

fn answer(case: &Case) -> Option<Answer> {
    Some(match case {
        Case::Checks { bytes } => Answer::Checks { header: Fcs::header_check(bytes), frame: Fcs::frame_check(bytes) },
        Case::LengthFor { payload_bytes, align } => {
            Answer::Length(frame::encoded_len_for(*payload_bytes, ProgramAlign::new(*align)?).map_err(decode_error))
        }
        Case::Encode { align, record, free, out_len } => encode(ProgramAlign::new(*align)?, record, free, *out_len)?,
        Case::Decode { bytes } => decode(bytes),
        Case::Recovery { units, held, page_len, region } => {
            Answer::Recovery(recovery(*units, *held, *page_len, region)?)
        }
        Case::Scan { align, journal } => Answer::Scan(scan(ProgramAlign::new(*align)?, journal)),
        Case::Append { units, page_len, region, calls } => Answer::Append(append(*units, *page_len, region, calls)?),
        Case::Find { units, page_len, region, seq } => find(*units, *page_len, region, *seq)?,
        Case::Counts { align, free_len, doublings } => counts(*align, *free_len, doublings)?,
        // Its counts are made by its own calls alone.
        Case::Sum { .. } => return None,
    })
}

pub fn decode_error(error: DecodeError) -> Refused {
    Refused::plain(match error {
        DecodeError::Truncated => 4,
        DecodeError::LengthOutOfBounds => 5,
        DecodeError::UnknownRecordKind => 6,
        DecodeError::UnsupportedFormatVersion => 7,
        DecodeError::MalformedRecord => 8,
        DecodeError::IntegrityFailed => 9,
        DecodeError::Unsealed => 10,
    })
}

fn recovery_error<E>(error: RecoveryError<E>) -> Refused {
    match error {
        RecoveryError::Storage(_) => DEVICE_ERROR,
        RecoveryError::Decode(error) => decode_error(error),
        RecoveryError::WrongDevice => WRONG_DEVICE,
        RecoveryError::PageTooSmall { needed } => Refused { needed: needed as u32, ..Refused::plain(3) },
    }
}

fn append_error<E>(error: AppendError<E>) -> Refused {
    match error {
        AppendError::Storage(_) => DEVICE_ERROR,
        AppendError::Encode(_) => Refused::plain(5),
        AppendError::WrongDevice => WRONG_DEVICE,
        AppendError::NoRoom { needed, available } => Refused { needed, available, ..Refused::plain(13) },
        AppendError::Interrupted => Refused::plain(12),
    }
}

/// The Rust's form of a record; none where it has no form for it.
pub fn record_ref<'a>(record: &Record, free: &'a [u8]) -> Option<RecordRef<'a>> {
    let seq = EffectSeq(record.seq);
    let Record { workflow_kind, workflow_version, input_len, input_crc, deadline, armed_at, version, .. } = *record;
    Some(match record.kind {
        1 => RecordRef::RunStarted { workflow_kind, workflow_version, input: free },
        2 => RecordRef::EffectScheduled { seq, kind: ActivityKind(record.activity), input_len, input_crc },
        3 => RecordRef::EffectCompleted { seq, result: free },
        4 => RecordRef::EffectFailed { seq, error: free },
        5 => RecordRef::TimerScheduled { seq, clock_kind: ClockKind(record.clock_kind), deadline, armed_at },
        6 => RecordRef::TimerFired { seq },
        7 => RecordRef::RunCompleted { result: free },
        8 => RecordRef::RunFailed { error: free },
        9 => RecordRef::VersionMarker { seq, gate: GateId(record.gate), version },
        _ => return None,
    })
}

/// The model's form of a record, and its free bytes where its kind has any.
fn plain_record<'a>(found: &RecordRef<'a>) -> (Record, Option<&'a [u8]>) {
    let bare = Record { kind: found.kind().0, ..Record::default() };
    match *found {
        RecordRef::RunStarted { workflow_kind, workflow_version, input } => {
            (Record { workflow_kind, workflow_version, ..bare }, Some(input))
        }
        RecordRef::EffectScheduled { seq, kind, input_len, input_crc } => {
            (Record { seq: seq.0, activity: kind.0, input_len, input_crc, ..bare }, None)
        }
        RecordRef::EffectCompleted { seq, result } => (Record { seq: seq.0, ..bare }, Some(result)),
        RecordRef::EffectFailed { seq, error } => (Record { seq: seq.0, ..bare }, Some(error)),
        RecordRef::TimerScheduled { seq, clock_kind, deadline, armed_at } => {
            (Record { seq: seq.0, clock_kind: clock_kind.0, deadline, armed_at, ..bare }, None)
        }
        RecordRef::TimerFired { seq } => (Record { seq: seq.0, ..bare }, None),
        RecordRef::RunCompleted { result } => (bare, Some(result)),
        RecordRef::RunFailed { error } => (bare, Some(error)),
        RecordRef::VersionMarker { seq, gate, version } => (Record { seq: seq.0, gate: gate.0, version, ..bare }, None),
    }
}

/// Where the Rust's slice stands, counted from the address where its record begins.
fn part_of(free: Option<&[u8]>, start: usize) -> Part {
    match free {
        Some(bytes) => Part { place: (bytes.as_ptr() as usize).wrapping_sub(start), len: bytes.len() },
        None => Part::default(),
    }
}

/// The whole payload, by the Rust's own length of the record.
fn payload_part(record: &RecordRef<'_>) -> Part {
    let len = frame::body_len(record, ProgramAlign::BYTE).map_or(0, |body| body - frame::FRAME_OVERHEAD_BYTES);
    Part { place: frame::HEADER_BYTES, len }
}

/// A found record: it ends at `end`, and the bytes it was read from begin at address `start(offset)`.
fn found(record: &RecordRef<'_>, align: ProgramAlign, end: usize, start: impl Fn(usize) -> usize) -> Found {
    let len = frame::encoded_len(record, align).unwrap_or(0);
    let offset = end.wrapping_sub(len);
    let (plain, free) = plain_record(record);
    Found { offset, len, record: plain, free: part_of(free, start(offset)), payload: payload_part(record) }
}

fn encode(align: ProgramAlign, record: &Record, free: &[u8], out_len: usize) -> Option<Answer> {
    let record = record_ref(record, free)?;
    let mut out = vec![BEFORE; out_len];
    let encode = frame::encode_with::<Fcs>(&record, align, &mut out).map_err(decode_error);
    let unpadded = frame::body_len(&record, ProgramAlign::BYTE).map_err(decode_error);
    Some(Answer::Encode {
        payload_len: unpadded.map(|body| body - frame::FRAME_OVERHEAD_BYTES),
        encoded_len: frame::encoded_len(&record, align).map_err(decode_error),
        body_len: frame::body_len(&record, align).map_err(decode_error),
        encode,
        out,
    })
}

fn decode(bytes: &[u8]) -> Answer {
    let frame_len_of = frame::frame_len_of_with::<Fcs>(bytes).map_err(decode_error);
    let decoded = frame::decode_with::<Fcs>(bytes).map_err(decode_error).map(|frame| {
        let (known, record, free, payload) = match &frame.decoded {
            frame::Decoded::Record(record) => {
                let (plain, free) = plain_record(record);
                (true, plain, part_of(free, bytes.as_ptr() as usize), payload_part(record))
            }
            frame::Decoded::UnknownKind(kind) => {
                (false, Record { kind: kind.0, ..Record::default() }, Part::default(), Part::default())
            }
        };
        let frame::Frame { frame_len, frame_crc, format_version, .. } = frame;
        Decoded { known, record, free, payload, frame_len, frame_crc, format_version }
    });
    Answer::Decode { frame_len_of, decoded }
}

/// The journal's region over a device; none where the Rust's constructors do not accept the units.
pub fn journal_region(memory: &Memory<'_>, program: u16) -> Option<JournalRegion> {
    let geometry = memory.geometry();
    JournalRegion::spanning(geometry, 0, geometry.capacity(), ProgramAlign::new(program)?).ok()
}

fn ending_number(ending: Option<Ending>) -> u8 {
    match ending {
        None => OPEN,
        Some(Ending::Clean { .. }) => CLEAN,
        Some(Ending::Damaged { .. }) => DAMAGED,
        Some(Ending::Incomplete { .. }) => INCOMPLETE,
        Some(Ending::Unsealed { .. }) => UNSEALED,
    }
}

/// One step, with the page as it leaves it aside.
fn recovery_next(state: &mut Recovery<'_, Memory<'_>, Fcs>, page: &mut [u8]) -> Outcome {
    let start = page.as_ptr() as usize;
    let align = state.region().align();
    match state.next(page) {
        None => Outcome::Ended,
        Some(Err(error)) => Outcome::Refused(recovery_error(error)),
        Some(Ok(record)) => Outcome::Found(found(&record, align, state.offset() as usize, |_| start)),
    }
}

fn recovery(units: Units, held: usize, page_len: usize, region: &[u8]) -> Option<Vec<RecoveryStep>> {
    let mut bytes = region.to_vec();
    let reads = Cell::new(0);
    let mut memory = Memory::new(&mut bytes, u32::from(units.read)).ok()?.counted(&reads);
    let mut held = vec![0xFF; held];
    let region = journal_region(&Memory::new(&mut held, u32::from(units.read)).ok()?, units.program)?;
    let mut state = Recovery::<_, Fcs>::with_integrity(region, &mut memory);
    let mut page = vec![BEFORE; page_len];
    let mut steps = Vec::new();
    let mut past = 0;
    while past <= STEPS_PAST_THE_END {
        let outcome = recovery_next(&mut state, &mut page);
        past += usize::from(!matches!(outcome, Outcome::Found(_)));
        let ending = ending_number(state.ending());
        steps.push(RecoveryStep { outcome, offset: state.offset(), ending, reads: reads.get(), page: page.clone() });
    }
    Some(steps)
}

fn scan(align: ProgramAlign, journal: &[u8]) -> Vec<ScanStep> {
    let base = journal.as_ptr() as usize;
    let mut state = Scan::<Fcs>::with_integrity(journal, align);
    let mut steps = Vec::new();
    let mut past = 0;
    while past <= STEPS_PAST_THE_END {
        let outcome = match state.next() {
            None => Outcome::Ended,
            Some(Err(error)) => Outcome::Refused(decode_error(error)),
            Some(Ok(record)) => Outcome::Found(found(&record, align, state.offset(), |offset| base + offset)),
        };
        past += usize::from(!matches!(outcome, Outcome::Found(_)));
        steps.push(ScanStep { outcome, offset: state.offset() });
    }
    steps
}

fn written(counts: WriteAmplification) -> Written {
    Written {
        payload_bytes: counts.payload_bytes().into(),
        programmed_bytes: counts.programmed_bytes().into(),
        program_operations: counts.program_operations().into(),
        barriers: counts.barriers().into(),
        uncommitted_appends: 0,
    }
}

type TheirJournal = append::Journal<Fcs>;

/// Recovery to its end, and the journal made from it; 3 with the length it gave if it was incomplete, else 11.
pub fn open<C: IntegrityCheck>(
    memory: &mut Memory<'_>,
    program: u16,
    page: &mut [u8],
) -> Option<Result<append::Journal<C>, Refused>> {
    let region = journal_region(memory, program)?;
    let mut state = Recovery::<_, C>::with_integrity(region, memory);
    let mut refused = Refused::plain(11);
    while let Some(step) = state.next(page) {
        if let Err(error @ RecoveryError::PageTooSmall { .. }) = step {
            refused = recovery_error(error);
        }
    }
    Some(append::Journal::after(state).ok_or(refused))
}

/// A list's answers so far: the last call's own, and the journal.
struct Ran {
    journal: Option<TheirJournal>,
    refused: Option<Refused>,
    committed: Option<Written>,
    /// Calls that were made; fewer than given where the Rust has no form for the next one.
    made: usize,
}

/// What a step answered, and how many calls of the list it took.
type Stepped = (Result<Option<Written>, Refused>, usize);

/// Stage, and the barrier and commit that follow it in the list. What the Rust borrows until then is dropped on return.
fn stage_and_on(
    journal: &mut TheirJournal,
    memory: &mut Memory<'_>,
    calls: &[Call],
    page: &mut [u8],
) -> Option<Stepped> {
    let [Call::Stage(record, free), rest @ ..] = calls else { return None };
    let record = record_ref(record, free)?;
    let staged = match journal.stage(memory, &record, page) {
        Ok(staged) => staged,
        Err(error) => return Some((Err(append_error(error)), 1)),
    };
    let [Call::Barrier, rest @ ..] = rest else { return Some((Ok(None), 1)) };
    let sealable = match staged.payload_barrier() {
        Ok(sealable) => sealable,
        Err(error) => return Some((Err(append_error(error)), 2)),
    };
    let [Call::Commit, ..] = rest else { return Some((Ok(None), 2)) };
    Some((sealable.commit().map(|counts| Some(written(counts))).map_err(append_error), 3))
}

/// A stage on a device that is one unit longer.
fn stage_elsewhere(
    journal: &mut TheirJournal,
    memory: &Memory<'_>,
    record: &Record,
    free: &[u8],
    page: &mut [u8],
) -> Option<Stepped> {
    let unit = memory.geometry().read_size();
    let mut bytes = memory.bytes().to_vec();
    bytes.resize(bytes.len() + unit as usize, 0xFF);
    let mut other = Memory::new(&mut bytes, unit).ok()?;
    let staged = journal.stage(&mut other, &record_ref(record, free)?, page);
    Some((staged.map(|_| None).map_err(append_error), 1))
}

/// The whole of a list on a region and a page.
fn run(units: Units, memory: &mut Memory<'_>, page: &mut [u8], calls: &[Call]) -> Option<Ran> {
    let mut ran = Ran { journal: None, refused: None, committed: None, made: 0 };
    while let Some(call) = calls.get(ran.made) {
        (ran.refused, ran.committed) = (None, None);
        if let Call::Open = call {
            let opened = open(memory, units.program, page)?;
            ran.refused = opened.as_ref().err().copied();
            ran.journal = opened.ok();
            ran.made += 1;
            continue;
        }
        let Some(journal) = &mut ran.journal else { break };
        let step = match call {
            Call::StageElsewhere(record, free) => stage_elsewhere(journal, memory, record, free, page),
            Call::Foreign { at, bytes } => {
                program(memory.bytes_mut(), *at, bytes);
                Some((Ok(None), 1))
            }
            _ => stage_and_on(journal, memory, &calls[ran.made..], page),
        };
        let Some((answer, made)) = step else { break };
        match answer {
            Ok(committed) => ran.committed = committed,
            Err(refused) => ran.refused = Some(refused),
        }
        ran.made += made;
    }
    Some(ran)
}

/// Every call of a list with what it left. A staged record borrows journal, region and page, so each call's state is
/// seen by running the list up to that call afresh.
fn append(units: Units, page_len: usize, region: &[u8], calls: &[Call]) -> Option<Vec<AfterCall>> {
    let mut after = Vec::new();
    for upto in 1..=calls.len() {
        let mut bytes = region.to_vec();
        let mut page = vec![BEFORE; page_len];
        let mut memory = Memory::new(&mut bytes, u32::from(units.read)).ok()?;
        let ran = run(units, &mut memory, &mut page, &calls[..upto])?;
        if ran.made < upto {
            break;
        }
        let journal = ran.journal.as_ref().map(|journal| Journal {
            offset: journal.offset(),
            written: written(journal.amplification()),
            overhead: journal.amplification().overhead_bytes().into(),
        });
        after.push(AfterCall { refused: ran.refused, committed: ran.committed, journal, region: bytes, page });
    }
    Some(after)
}

fn find(units: Units, page_len: usize, region: &[u8], seq: u32) -> Option<Answer> {
    let mut latest = Ok(None);
    let mut page = Vec::new();
    for step in recovery(units, region.len(), page_len, region)? {
        match step.outcome {
            Outcome::Found(found) if found.record.seq == seq && matches!(found.record.kind, 2..=6 | 9) => {
                latest = Ok(Some(found.offset as u32));
            }
            Outcome::Refused(refused) if step.ending == INCOMPLETE => latest = Err(refused),
            _ => {}
        }
        page = step.page;
    }
    Some(Answer::Find { offset: latest, page })
}

fn counts(align: u16, free_len: usize, doublings: &[bool]) -> Option<Answer> {
    let mut bytes = vec![0xFF; 32 + free_len + 2 * usize::from(align)];
    let mut page = vec![BEFORE; bytes.len()];
    let mut memory = Memory::new(&mut bytes, 1).ok()?;
    let mut journal = open::<Fcs>(&mut memory, align, &mut page)?.ok()?;
    let free = vec![0; free_len];
    let record = RecordRef::RunCompleted { result: &free };
    let staged = journal.stage(&mut memory, &record, &mut page).ok()?;
    let one = staged.payload_barrier().ok()?.commit().ok()?;
    let mut sum = WriteAmplification::NONE;
    let mut sums = Vec::new();
    for double in doublings {
        sum = sum.plus(if *double { sum } else { one });
        sums.push((written(sum), sum.overhead_bytes().into()));
    }
    Some(Answer::Counts(sums))
}

#[cfg(test)]
mod tests {
    use super::*;
    use oracle::fcs::FcsByTable;

    #[test]
    fn the_checks_are_those_of_rfc_1662() {
        let answer = Theirs.answer(&Case::Checks { bytes: b"123456789".to_vec() });
        assert_eq!(answer, Answer::Checks { header: 0x906E, frame: 0xCBF4_3926 });
    }

    #[test]
    fn the_tables_check_as_the_bits_do() {
        let bytes: Vec<u8> = (0..=255).chain((0..=255).rev()).collect();
        for message in (0..bytes.len()).flat_map(|from| [&bytes[from..], &bytes[..from], &bytes[from..=from]]) {
            assert_eq!(FcsByTable::header_check(message), Fcs::header_check(message));
            assert_eq!(FcsByTable::frame_check(message), Fcs::frame_check(message));
        }
    }

    #[test]
    fn a_timer_fired_is_sealed_as_the_design_says() {
        let record = Record { kind: 6, seq: 7, ..Record::default() };
        let answer = Theirs.answer(&Case::Encode { align: 4, record, free: Vec::new(), out_len: 20 });
        let Answer::Encode { encode, out, .. } = answer else { panic!("an encode answers an encode") };
        assert_eq!(encode, Ok(20));
        let sealed = [0x57, 0x4D, 1, 6, 7, 0, 0, 0, 0, 0, 0xB6, 0x0A, 0x89, 0xDA, 0xBD, 0xEA, 0x09, 0x5A, 0x3D, 0x6A];
        assert_eq!(out, sealed);
    }
}
