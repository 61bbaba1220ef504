//! Our side: the journal's calls through its Rust package, with the answers put into the model's numbers.

use crate::model::*;
use jardolento::ffi;
use jardolento::{Given, RecordRef, Refusal};

pub struct Ours;

impl Side for Ours {
    fn answer(&self, case: &Case) -> Answer {
        match case {
            Case::Checks { bytes } => {
                Answer::Checks { header: jardolento::header_check(bytes), frame: jardolento::frame_check(bytes) }
            }
            Case::LengthFor { payload_bytes, align } => {
                Answer::Length(jardolento::encoded_len_for(*payload_bytes, usize::from(*align)).map_err(refused))
            }
            Case::Encode { align, record, free, out_len } => encode(usize::from(*align), record, free, *out_len),
            Case::Decode { bytes } => decode(bytes),
            Case::Recovery { units, held, page_len, region } => {
                Answer::Recovery(recovery(*units, *held, *page_len, region))
            }
            Case::Scan { align, journal } => Answer::Scan(scan(usize::from(*align), journal)),
            Case::Append { units, page_len, region, calls } => Answer::Append(append(*units, *page_len, region, calls)),
            Case::Find { units, page_len, region, seq } => {
                let mut page = vec![BEFORE; *page_len];
                let (program, read) = sizes(*units);
                let offset = jardolento::find(*seq, program, read, region, &mut page).map_err(refused);
                Answer::Find { offset, page }
            }
            Case::Counts { align, free_len, doublings } => counts(usize::from(*align), *free_len, doublings),
            Case::Sum { x, y } => Answer::Counts(vec![sum_of(given_counts(*x).plus(given_counts(*y)))]),
        }
    }
}

fn refused(refusal: Refusal) -> Refused {
    let plain = Refused { place: refusal.place(), ..Refused::plain(refusal.number()) };
    match refusal {
        Refusal::PageTooSmall { needed } => Refused { needed, ..plain },
        Refusal::NoRoom { needed, available } => Refused { needed, available, ..plain },
        _ => plain,
    }
}

fn sizes(units: Units) -> (usize, usize) {
    (usize::from(units.program), usize::from(units.read))
}

/// A record as C takes it, with all of its numbers, also those that its kind lacks.
pub fn given<'a>(record: &Record, free: &'a [u8]) -> Given<'a> {
    let Record { kind, seq, workflow_kind, workflow_version, activity, input_len, input_crc, .. } = *record;
    let Record { clock_kind, deadline, armed_at, gate, version, .. } = *record;
    let record = ffi::Record {
        kind,
        seq,
        workflow_kind,
        workflow_version,
        activity,
        input_len,
        input_crc,
        clock_kind,
        deadline,
        armed_at,
        gate,
        version,
    };
    Given { record, free }
}

fn plain_record(record: &RecordRef<'_>) -> Record {
    let bare = Record { kind: record.kind(), seq: record.seq(), ..Record::default() };
    match *record {
        RecordRef::RunStarted { workflow_kind, workflow_version, .. } => {
            Record { workflow_kind, workflow_version, ..bare }
        }
        RecordRef::EffectScheduled { kind, input_len, input_crc, .. } => {
            Record { activity: kind, input_len, input_crc, ..bare }
        }
        RecordRef::TimerScheduled { clock_kind, deadline, armed_at, .. } => {
            Record { clock_kind, deadline, armed_at, ..bare }
        }
        RecordRef::VersionMarker { gate, version, .. } => Record { gate, version, ..bare },
        _ => bare,
    }
}

/// Where a slice stands, counted from the address where its record begins.
fn part_of(bytes: &[u8], start: usize) -> Part {
    Part { place: (bytes.as_ptr() as usize).wrapping_sub(start), len: bytes.len() }
}

/// The free bytes' part; 0 and 0 for the kinds that have none.
fn free_part(record: &RecordRef<'_>, start: usize) -> Part {
    match record.kind() {
        1 | 3 | 4 | 7 | 8 => part_of(record.free(), start),
        _ => Part::default(),
    }
}

fn found(found: &jardolento::Found<'_>, start: usize) -> Found {
    Found {
        offset: found.offset,
        len: found.len,
        record: plain_record(&found.record),
        free: free_part(&found.record, start),
        payload: part_of(found.payload, start),
    }
}

fn encode(align: usize, record: &Record, free: &[u8], out_len: usize) -> Answer {
    let given = given(record, free);
    let mut out = vec![BEFORE; out_len];
    let encode = jardolento::encode(given, align, &mut out).map_err(refused);
    Answer::Encode {
        payload_len: jardolento::payload_len(given).map_err(refused),
        encoded_len: jardolento::encoded_len(given, align).map_err(refused),
        body_len: jardolento::body_len(given, align).map_err(refused),
        encode,
        out,
    }
}

fn decode(bytes: &[u8]) -> Answer {
    let start = bytes.as_ptr() as usize;
    let decoded = jardolento::decode(bytes).map_err(refused).map(|frame| {
        let (known, record, free, payload) = match &frame.decoded {
            jardolento::Decoded::Record(record) => {
                (true, plain_record(record), free_part(record, start), part_of(frame.payload, start))
            }
            // The Rust hands out no payload of an unknown kind.
            jardolento::Decoded::UnknownKind(kind) => {
                (false, Record { kind: *kind, ..Record::default() }, Part::default(), Part::default())
            }
        };
        let jardolento::Frame { frame_len, frame_crc, format_version, .. } = frame;
        Decoded { known, record, free, payload, frame_len, frame_crc, format_version }
    });
    Answer::Decode { frame_len_of: jardolento::frame_len_of(bytes).map_err(refused), decoded }
}

/// A recovery of a region of so many bytes, from its start.
pub fn recovery_of(units: Units, bytes: usize) -> jardolento::Recovery {
    jardolento::Recovery::new(jardolento::Geometry {
        bytes: bytes as u32,
        program_size: u32::from(units.program),
        read_size: u32::from(units.read),
    })
}

fn outcome(step: Option<Result<jardolento::Found<'_>, Refusal>>, start: impl Fn(usize) -> usize) -> Outcome {
    match step {
        None => Outcome::Ended,
        Some(Err(refusal)) => Outcome::Refused(refused(refusal)),
        Some(Ok(record)) => Outcome::Found(found(&record, start(record.offset))),
    }
}

fn recovery(units: Units, held: usize, page_len: usize, region: &[u8]) -> Vec<RecoveryStep> {
    let mut state = recovery_of(units, held);
    let mut page = vec![BEFORE; page_len];
    let start = page.as_ptr() as usize;
    let mut steps = Vec::new();
    let mut past = 0;
    while past <= STEPS_PAST_THE_END && steps.len() <= region.len() + STEPS_PAST_THE_END {
        let outcome = outcome(state.next(region, &mut page), |_| start);
        past += usize::from(!matches!(outcome, Outcome::Found(_)));
        let (offset, ending, reads) = (state.offset(), state.0.ending, state.reads());
        steps.push(RecoveryStep { outcome, offset, ending, reads, page: page.clone() });
    }
    steps
}

fn scan(align: usize, journal: &[u8]) -> Vec<ScanStep> {
    let base = journal.as_ptr() as usize;
    let mut state = jardolento::Scan::new(align);
    let mut steps = Vec::new();
    let mut past = 0;
    while past <= STEPS_PAST_THE_END && steps.len() <= journal.len() + STEPS_PAST_THE_END {
        let outcome = outcome(state.next(journal), |offset| base + offset);
        past += usize::from(!matches!(outcome, Outcome::Found(_)));
        steps.push(ScanStep { outcome, offset: state.offset() });
    }
    steps
}

fn written(counts: ffi::Written) -> Written {
    let ffi::Written { payload_bytes, programmed_bytes, program_operations, barriers, uncommitted_appends } = counts;
    Written { payload_bytes, programmed_bytes, program_operations, barriers, uncommitted_appends }
}

/// Counts as C takes them.
fn given_counts(counts: Written) -> ffi::Written {
    let Written { payload_bytes, programmed_bytes, program_operations, barriers, uncommitted_appends } = counts;
    ffi::Written { payload_bytes, programmed_bytes, program_operations, barriers, uncommitted_appends }
}

fn sum_of(counts: ffi::Written) -> (Written, u64) {
    (written(counts), counts.overhead_bytes())
}

/// One call of a list: its own counts where it is a commit.
fn call(
    units: Units,
    journal: &mut Option<jardolento::Journal>,
    call: &Call,
    region: &mut [u8],
    page: &mut [u8],
) -> Option<Result<Option<Written>, Refused>> {
    let (program_size, read_size) = sizes(units);
    let opened = match call {
        Call::Open => Some(jardolento::Journal::open(program_size, read_size, region, page)),
        Call::OpenWith(counts) => {
            Some(jardolento::Journal::open_with(given_counts(*counts), program_size, read_size, region, page))
        }
        _ => None,
    };
    if let Some(opened) = opened {
        *journal = opened.ok();
        return Some(opened.map(|_| None).map_err(refused));
    }
    let journal = journal.as_mut()?;
    Some(match call {
        Call::Stage(record, free) => journal.stage(given(record, free), region, page).map(|()| None).map_err(refused),
        Call::StageElsewhere(record, free) => {
            let mut other = region.to_vec();
            other.resize(region.len() + read_size, 0xFF);
            journal.stage(given(record, free), &mut other, page).map(|()| None).map_err(refused)
        }
        Call::Foreign { at, bytes } => {
            program(region, *at, bytes);
            Ok(None)
        }
        Call::Barrier => journal.payload_barrier(region).map(|()| None).map_err(refused),
        _ => journal.commit(region).map(|counts| Some(written(counts))).map_err(refused),
    })
}

fn append(units: Units, page_len: usize, region: &[u8], calls: &[Call]) -> Vec<AfterCall> {
    let mut region = region.to_vec();
    let mut page = vec![BEFORE; page_len];
    let mut journal = None;
    let mut after = Vec::new();
    for next in calls {
        let Some(answer) = call(units, &mut journal, next, &mut region, &mut page) else { break };
        let state = journal.map(|journal| Journal {
            offset: journal.offset(),
            written: written(journal.written()),
            overhead: journal.written().overhead_bytes(),
        });
        let committed = answer.ok().flatten();
        let refused = answer.err();
        after.push(AfterCall { refused, committed, journal: state, region: region.clone(), page: page.clone() });
    }
    after
}

fn counts(align: usize, free_len: usize, doublings: &[bool]) -> Answer {
    let mut region = vec![0xFF; 32 + free_len + 2 * align];
    let mut page = vec![BEFORE; region.len()];
    let free = vec![0; free_len];
    let one = jardolento::Journal::open(align, 1, &region, &mut page).and_then(|mut journal| {
        journal.stage(RecordRef::RunCompleted { result: &free }, &mut region, &mut page)?;
        journal.payload_barrier(&region)?;
        journal.commit(&mut region)
    });
    let Ok(one) = one else { return Answer::NotAccepted };
    let mut sum = ffi::Written::default();
    let mut sums = Vec::new();
    for double in doublings {
        sum = sum.plus(if *double { sum } else { one });
        sums.push(sum_of(sum));
    }
    Answer::Counts(sums)
}
