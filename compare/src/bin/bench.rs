//! bench: the time of each call on our side and in the Rust, from one driver and the same buffers, as a ratio.
//!
//!     bench          the Rust's two checks by table, as ours are
//!     bench --bits   the Rust's two checks bit by bit
//!
//! The two sides take turns, and the least time of all rounds counts: what else the machine does can only add to it.

use compare::bytes;
use compare::model::{Record, Units};
use compare::ours;
use compare::theirs;
use oracle::RecordRef;
use oracle::fcs::{Fcs, FcsByTable};
use oracle::frame::{self, ProgramAlign, Scan};
use oracle::integrity::IntegrityCheck;
use oracle::memory::Memory;
use oracle::recovery::Recovery;
use std::env;
use std::hint::black_box;
use std::process::ExitCode;
use std::time::{Duration, Instant};

const UNITS: Units = Units { program: 4, read: 4 };
const PAYLOADS: [usize; 5] = [0, 16, 256, 4_096, 65_535];
const LONGEST_PAGE: usize = 66_048;
const ROUNDS: usize = 31;
/// About how long one side runs in one round.
const TURN: Duration = Duration::from_millis(4);

/// Runs something so many times and says how long that took, without what had to be set up.
type Turn<'a> = &'a mut dyn FnMut(usize) -> Duration;

fn main() -> ExitCode {
    let mut words = env::args().skip(1);
    match (words.next().as_deref(), words.next()) {
        (None, _) => all::<FcsByTable>("Both sides check by table, one lookup an octet."),
        (Some("--bits"), None) => {
            all::<Fcs>("The Rust checks by loops over bits, of which its compiler may make a table.")
        }
        _ => {
            eprintln!("usage: bench [--bits]");
            return ExitCode::from(2);
        }
    }
    ExitCode::SUCCESS
}

/// Every call at every length, with the Rust's checks made by C.
fn all<C: IntegrityCheck>(method: &str) {
    println!("{method} Times in ns, the least of {ROUNDS} rounds. a = 4, r = 4, records of kind 3.\n");
    println!("| call | payload bytes | ours | Rust | ratio | ratio of medians |");
    println!("|---|---:|---:|---:|---:|---:|");
    for call in [encode::<C>, decode::<C>, scan::<C>, recovery::<C>, append::<C>] {
        PAYLOADS.into_iter().for_each(call);
    }
    for page_len in [512, LONGEST_PAGE] {
        erased_tail::<C>(page_len);
    }
}

/// Takes turns and prints a line of the table; `per` is how many things one run does.
fn compare(name: &str, payload: &str, per: usize, ours: Turn, theirs: Turn) {
    let once = ours(1).max(theirs(1)).max(Duration::from_nanos(1));
    let times = (TURN.as_nanos() / once.as_nanos()).clamp(1, 1_000_000) as usize;
    let (mut mine, mut others) = (Vec::new(), Vec::new());
    for round in 0..ROUNDS {
        if round % 2 == 0 {
            mine.push(ours(times));
            others.push(theirs(times));
        } else {
            others.push(theirs(times));
            mine.push(ours(times));
        }
    }
    mine.sort();
    others.sort();
    let (mine, mine_median) = (mine[0], mine[ROUNDS / 2]);
    let (others, others_median) = (others[0], others[ROUNDS / 2]);
    if mine.is_zero() || others.is_zero() {
        println!("| {name} | {payload} | a call was refused | | | |");
        return;
    }
    let each = |time: Duration| time.as_nanos() as f64 / (times * per) as f64;
    let ratio = |mine: Duration, others: Duration| mine.as_secs_f64() / others.as_secs_f64();
    let (least, median) = (ratio(mine, others), ratio(mine_median, others_median));
    println!("| {name} | {payload} | {:.1} | {:.1} | {least:.2} | {median:.2} |", each(mine), each(others));
}

/// Times a run that needs nothing set up between two of them.
fn timed(times: usize, mut run: impl FnMut()) -> Duration {
    let start = Instant::now();
    for _ in 0..times {
        run();
    }
    start.elapsed()
}

fn free_bytes(len: usize) -> Vec<u8> {
    (0..len).map(|at| (at * 31 + at / 256) as u8).collect()
}

fn align() -> ProgramAlign {
    ProgramAlign::new(UNITS.program).unwrap_or(ProgramAlign::BYTE)
}

fn encode<C: IntegrityCheck>(payload: usize) {
    let free = free_bytes(payload);
    let mut out = vec![0; bytes::record_len(payload, UNITS.program)];
    let mut other = out.clone();
    let record = Record { kind: 3, seq: 7, ..Record::default() };
    compare(
        "encode",
        &payload.to_string(),
        1,
        &mut |times| {
            timed(times, || {
                let given = ours::given(black_box(&record), black_box(&free));
                black_box(jardolento::encode(given, usize::from(UNITS.program), &mut out)).ok();
            })
        },
        &mut |times| {
            timed(times, || {
                let Some(given) = theirs::record_ref(black_box(&record), black_box(&free)) else { return };
                black_box(frame::encode_with::<C>(&given, align(), &mut other)).ok();
            })
        },
    );
}

fn decode<C: IntegrityCheck>(payload: usize) {
    let frame = bytes::frame(1, 3, 7, &free_bytes(payload));
    compare(
        "decode",
        &payload.to_string(),
        1,
        &mut |times| {
            timed(times, || {
                black_box(jardolento::decode(black_box(&frame))).ok();
            })
        },
        &mut |times| {
            timed(times, || {
                black_box(frame::decode_with::<C>(black_box(&frame))).ok();
            })
        },
    );
}

/// Some sealed records and a short erased tail, and how many records.
fn journal(payload: usize) -> (Vec<u8>, usize) {
    let records = (65_536 / (payload + 20)).clamp(2, 16);
    let record = bytes::sealed(&bytes::frame(1, 3, 7, &free_bytes(payload)), UNITS.program);
    let mut region = record.repeat(records);
    region.resize(region.len() + 64, 0xFF);
    (region, records)
}

fn scan<C: IntegrityCheck>(payload: usize) {
    let (region, records) = journal(payload);
    compare(
        "scan, per record",
        &payload.to_string(),
        records,
        &mut |times| {
            timed(times, || {
                let mut state = jardolento::Scan::new(usize::from(UNITS.program));
                while let Some(step) = state.next(black_box(&region)) {
                    black_box(&step);
                }
            })
        },
        &mut |times| {
            timed(times, || {
                for step in Scan::<C>::with_integrity(black_box(&region), align()) {
                    black_box(step).ok();
                }
            })
        },
    );
}

/// A recovery of ours to its end.
fn recover_ours(region: &[u8], page: &mut [u8]) {
    let mut state = ours::recovery_of(UNITS, black_box(region).len());
    while let Some(step) = state.next(region, page) {
        black_box(&step);
    }
}

/// A recovery of the Rust to its end.
fn recover_theirs<C: IntegrityCheck>(region: &mut [u8], page: &mut [u8]) {
    let Ok(mut memory) = Memory::new(black_box(region), u32::from(UNITS.read)) else { return };
    let Some(region) = theirs::journal_region(&memory, UNITS.program) else { return };
    let mut state = Recovery::<_, C>::with_integrity(region, &mut memory);
    while let Some(step) = state.next(page) {
        black_box(&step);
    }
}

fn recovery<C: IntegrityCheck>(payload: usize) {
    let (region, records) = journal(payload);
    let mut other = region.clone();
    let mut page = vec![0; LONGEST_PAGE];
    let mut other_page = page.clone();
    compare(
        "recovery, per record",
        &payload.to_string(),
        records,
        &mut |times| timed(times, || recover_ours(&region, &mut page)),
        &mut |times| timed(times, || recover_theirs::<C>(&mut other, &mut other_page)),
    );
}

fn erased_tail<C: IntegrityCheck>(page_len: usize) {
    let region = vec![0xFF; 16 << 20];
    let mut other = region.clone();
    let mut page = vec![0; page_len];
    let mut other_page = page.clone();
    compare(
        &format!("recovery, 16 MiB erased, page {page_len}"),
        "-",
        1,
        &mut |times| timed(times, || recover_ours(&region, &mut page)),
        &mut |times| timed(times, || recover_theirs::<C>(&mut other, &mut other_page)),
    );
}

/// Appends that fill a region, one after the other. Erasing it and opening the journal are not timed.
fn append<C: IntegrityCheck>(payload: usize) {
    let free = free_bytes(payload);
    let records = (262_144 / (payload + 20)).clamp(4, 512);
    let mut region = vec![0xFF; records * bytes::record_len(payload, UNITS.program)];
    let mut other = region.clone();
    let mut page = vec![0; LONGEST_PAGE];
    let mut other_page = page.clone();
    compare(
        "append",
        &payload.to_string(),
        records,
        &mut |times| (0..times).map(|_| append_ours(&free, records, &mut region, &mut page).unwrap_or_default()).sum(),
        &mut |times| {
            (0..times)
                .map(|_| append_theirs::<C>(&free, records, &mut other, &mut other_page).unwrap_or_default())
                .sum()
        },
    );
}

fn append_ours(free: &[u8], records: usize, region: &mut [u8], page: &mut [u8]) -> Option<Duration> {
    region.fill(0xFF);
    let (program, read) = (usize::from(UNITS.program), usize::from(UNITS.read));
    let mut journal = jardolento::Journal::open(program, read, region, page).ok()?;
    let record = Record { kind: 3, seq: 7, ..Record::default() };
    let start = Instant::now();
    for _ in 0..records {
        journal.stage(ours::given(black_box(&record), black_box(free)), region, page).ok()?;
        journal.payload_barrier(region).ok()?;
        black_box(journal.commit(region)).ok()?;
    }
    Some(start.elapsed())
}

fn append_theirs<C: IntegrityCheck>(
    free: &[u8],
    records: usize,
    region: &mut [u8],
    page: &mut [u8],
) -> Option<Duration> {
    region.fill(0xFF);
    let mut memory = Memory::new(region, u32::from(UNITS.read)).ok()?;
    let mut journal = theirs::open::<C>(&mut memory, UNITS.program, page)?.ok()?;
    let record = Record { kind: 3, seq: 7, ..Record::default() };
    let start = Instant::now();
    for _ in 0..records {
        let record: RecordRef<'_> = theirs::record_ref(black_box(&record), black_box(free))?;
        let staged = journal.stage(&mut memory, &record, page).ok()?;
        black_box(staged.payload_barrier().ok()?.commit()).ok()?;
    }
    Some(start.elapsed())
}
