//! That the calls over slices pass everything to C and back: each kind of record, each ending, each step.

use jardolento::{
    body_len, costliest, decode, encode, encoded_len, encoded_len_for, ffi, find, frame_check, frame_len_of,
    header_check, payload_len, seal, Decoded, Ending, Geometry, Given, Journal, Phase, RecordRef, Recovery, Refusal,
    Scan, Written, LONGEST_RECORD, PAGE_BYTES,
};

const RECORDS: [RecordRef; 9] = [
    RecordRef::RunStarted { workflow_kind: 0x1234, workflow_version: 2, input: b"input" },
    RecordRef::EffectScheduled { seq: 0x0102_0304, kind: 5, input_len: 6, input_crc: 0xFEDC_BA98 },
    RecordRef::EffectCompleted { seq: 1, result: b"ok" },
    RecordRef::EffectFailed { seq: 2, error: b"" },
    RecordRef::TimerScheduled { seq: 3, clock_kind: 2, deadline: u64::MAX, armed_at: 0x1122_3344_5566_7788 },
    RecordRef::TimerFired { seq: 3 },
    RecordRef::RunCompleted { result: b"done" },
    RecordRef::RunFailed { error: b"no" },
    RecordRef::VersionMarker { seq: 4, gate: 7, version: 8 },
];

#[test]
fn checks_are_those_of_the_rfc() {
    assert_eq!(header_check(b"123456789"), 0x906E);
    assert_eq!(frame_check(b"123456789"), 0xCBF4_3926);
}

#[test]
fn each_kind_comes_back() {
    for record in RECORDS {
        let mut out = [0; 64];
        let len = encode(record, 4, &mut out).unwrap();
        let frame = decode(&out).unwrap();
        assert_eq!((frame.format_version, frame.decoded), (1, Decoded::Record(record)));
        assert_eq!(frame.payload.len(), payload_len(record).unwrap());
        assert!(frame.payload.ends_with(record.free()));
        assert_eq!(frame_len_of(&out[..12]), Ok(frame.frame_len));
        assert_eq!(encoded_len(record, 4), Ok(len));
        assert_eq!(body_len(record, 4), Ok(len - 4));
        assert_eq!(encoded_len_for(frame.payload.len(), 4), Ok(len));
        assert_eq!(frame.frame_crc, frame_check(&out[..frame.frame_len - 4]));
        let mut slot = [0xFF; 4];
        seal(frame.frame_crc, &mut slot);
        assert_eq!(slot, out[len - 4..len]);
    }
}

#[test]
fn a_seal_fills_a_slot_of_any_length() {
    let mut slot = [0xFF; 256];
    seal(0x0403_0281, &mut slot);
    assert!(slot.chunks(4).all(|part| part == [1, 2, 3, 4]));
    let mut slot = [0; 5];
    seal(u32::MAX, &mut slot[..3]);
    assert_eq!(slot, [0x7F, 0x7F, 0x7F, 0, 0]);
    seal(u32::MAX, &mut []);
}

#[test]
fn settings_are_refused_and_not_cut_off() {
    let most = Geometry { bytes: 16_777_216, program_size: 256, read_size: 4096 };
    assert_eq!(Geometry::new(16_777_216, 256, 4096), Ok(most));
    assert_eq!(Geometry::new(0, 1, 1), Ok(Geometry { bytes: 0, program_size: 1, read_size: 1 }));
    let wide = (1 << 32) + 4;
    for (bytes, program_size, read_size) in [
        (16_777_217, 4, 1),
        (wide, 4, 1),
        (20, wide, 1),
        (20, 4, wide),
        (20, 512, 1),
        (20, 4, 8192),
        (20, 3, 1),
        (20, 4, 0),
    ] {
        assert_eq!(Geometry::new(bytes, program_size, read_size), Err(Refusal::Settings));
    }
    // Such settings, made up, are refused by each step, and leave a recovery and a scan where they were.
    let mut recovery = Recovery::new(Geometry { bytes: 20, program_size: 3, read_size: 1 });
    let mut scan = Scan::new(3);
    for _ in 0..2 {
        assert_eq!(recovery.next(&[0; 20], &mut [0; 20]), Some(Err(Refusal::Settings)));
        assert_eq!(scan.next(&[0; 20]), Some(Err(Refusal::Settings)));
    }
    assert_eq!((recovery.ending(), scan.stopped()), (None, false));
}

#[test]
fn pages_hold_the_longest_record_by_whole_read_units() {
    let free = vec![7; 65_535];
    let record = RecordRef::RunCompleted { result: &free };
    let mut region = vec![0xFF; LONGEST_RECORD];
    let mut page = vec![0; PAGE_BYTES];
    let mut journal = Journal::open(256, 4096, &region, &mut page).unwrap();
    // Stage wants the record's length, without rounding.
    assert_eq!(journal.stage(record, &mut region, &mut page[1..LONGEST_RECORD]), Err(Refusal::LengthOutOfBounds));
    journal.stage(record, &mut region, &mut page[..LONGEST_RECORD]).unwrap();
    journal.payload_barrier(&region).unwrap();
    assert_eq!(journal.commit(&mut region).unwrap().programmed_bytes as usize, LONGEST_RECORD);
    let too_small = Err(Refusal::PageTooSmall { needed: LONGEST_RECORD as u32 });
    for (read_size, len, answer) in [
        (512, LONGEST_RECORD, Ok(())),
        (512, LONGEST_RECORD - 1, too_small),
        (1024, LONGEST_RECORD, too_small),
        (4096, PAGE_BYTES - 1, too_small),
        (4096, PAGE_BYTES, Ok(())),
    ] {
        let opening = Journal::open(256, read_size, &region, &mut page[..len]).map(|_| ());
        assert_eq!(opening, answer, "read unit {read_size}, page {len}");
    }
}

#[test]
fn stage_gives_refusal_5_for_three_reasons() {
    let (mut region, mut page) = ([0xFF; 64], [0; 64]);
    let mut journal = Journal::open(4, 1, &region, &mut page).unwrap();
    let long = vec![0; 65_536];
    let timer = RecordRef::TimerScheduled { seq: 1, clock_kind: 3, deadline: 0, armed_at: 0 };
    let fired = RecordRef::TimerFired { seq: 1 };
    let refused = Err(Refusal::LengthOutOfBounds);
    assert_eq!(journal.stage(RecordRef::RunFailed { error: &long }, &mut region, &mut page), refused);
    assert_eq!(journal.stage(timer, &mut region, &mut page), refused);
    assert_eq!(journal.stage(fired, &mut region, &mut page[..19]), refused);
    assert_eq!(encoded_len(timer, 4), Err(Refusal::Malformed));
    journal.stage(fired, &mut region, &mut page[..20]).unwrap();
}

#[test]
fn stage_refuses_where_a_byte_is_not_erased() {
    let (mut region, mut page) = ([0xFF; 64], [0; 64]);
    let mut journal = Journal::open(4, 1, &region, &mut page).unwrap();
    // A record of 20 bytes goes before what something else has written, and the next is refused for its slot's sake.
    region[39] = 0xFE;
    let fired = RecordRef::TimerFired { seq: 7 };
    journal.stage(fired, &mut region, &mut page).unwrap();
    journal.payload_barrier(&region).unwrap();
    journal.commit(&mut region).unwrap();
    let (journal_before, region_before, page_before) = (journal, region, page);
    let refused = Err(Refusal::NotErased { place: 39 });
    assert_eq!(journal.stage(fired, &mut region, &mut page), refused);
    assert_eq!(journal.stage(fired, &mut region, &mut page[..19]), refused);
    assert_eq!((journal, region, page), (journal_before, region_before, page_before));
}

#[test]
fn refusals_have_their_names_and_numbers() {
    let mut out = [0; 19];
    assert_eq!(encode(RecordRef::TimerFired { seq: 7 }, 4, &mut out), Err(Refusal::LengthOutOfBounds));
    assert_eq!(encode(RecordRef::TimerFired { seq: 7 }, 3, &mut out), Err(Refusal::Settings));
    assert_eq!(decode(&out), Err(Refusal::IntegrityFailed { place: None }));
    assert_eq!(decode(&out[..11]), Err(Refusal::Truncated));
    let given = Given { record: ffi::Record { kind: 10, ..Default::default() }, free: b"" };
    assert_eq!(encoded_len(given, 4), Err(Refusal::NotARecord));
    for number in (1..=15).chain([18, 24]) {
        let refused = ffi::Refused { number, has_place: u8::from(number == 18), ..Default::default() };
        assert_eq!(Refusal::of(refused).unwrap().number(), number);
    }
}

/// A region with each record appended, and 64 erased bytes behind them.
fn appended() -> (Vec<u8>, Journal) {
    let len: usize = RECORDS.iter().map(|record| encoded_len(record, 4).unwrap()).sum();
    let (mut region, mut page) = (vec![0xFF; len + 64], vec![0; 256]);
    let mut journal = Journal::open(4, 1, &region, &mut page).unwrap();
    for record in RECORDS {
        assert_eq!(journal.phase(), Phase::Ready);
        assert_eq!(journal.commit(&mut region), Err(Refusal::OutOfOrder));
        journal.stage(record, &mut region, &mut page).unwrap();
        assert_eq!(journal.phase(), Phase::Staged);
        assert_eq!(journal.stage(record, &mut region, &mut page), Err(Refusal::Interrupted));
        journal.payload_barrier(&region).unwrap();
        assert_eq!(journal.phase(), Phase::Confirmed);
        let written = journal.commit(&mut region).unwrap();
        assert_eq!(written.programmed_bytes as usize, encoded_len(record, 4).unwrap());
    }
    assert_eq!(journal.offset() as usize, len);
    (region, journal)
}

#[test]
fn recovery_and_scan_find_what_was_appended() {
    let (region, journal) = appended();
    let mut recovery = Recovery::new(Geometry::new(region.len(), 4, 1).unwrap());
    let mut scan = Scan::new(4);
    let mut page = [0; 256];
    for record in RECORDS {
        assert_eq!(recovery.ending(), None);
        let found = recovery.next(&region, &mut page).unwrap().unwrap();
        assert_eq!(found.record, record);
        assert_eq!(scan.next(&region), Some(Ok(found)));
    }
    assert_eq!(recovery.next(&region, &mut page), None);
    assert_eq!(recovery.ending(), Some(Ending::Clean { append_at: journal.offset() }));
    assert_eq!(scan.next(&region), None);
    assert_eq!((scan.offset(), scan.stopped()), (journal.offset() as usize, true));
    assert_eq!(find(9, 4, 1, &region, &mut page), Ok(None));
    // Sequence 3 was scheduled and then fired; the latest record is the firing.
    let offset: usize = RECORDS[..5].iter().map(|record| encoded_len(record, 4).unwrap()).sum();
    assert_eq!(find(3, 4, 1, &region, &mut page), Ok(Some(offset as u32)));
    assert_eq!(find(3, 4, 1, &region, &mut [0; 11]), Err(Refusal::PageTooSmall { needed: 12 }));
}

#[test]
fn endings_are_told_apart() {
    let geometry = Geometry::new(20, 4, 1).unwrap();
    let mut region = [0; 20];
    let mut recovery = Recovery::new(geometry);
    assert_eq!(recovery.next(&region, &mut [0; 20]), Some(Err(Refusal::IntegrityFailed { place: None })));
    assert_eq!(recovery.ending(), Some(Ending::Damaged { at: 0 }));

    encode(RecordRef::RunFailed { error: b"" }, 4, &mut region).unwrap();
    region[19] = 0xFF;
    let mut recovery = Recovery::new(geometry);
    assert_eq!(recovery.next(&region, &mut [0; 20]), Some(Err(Refusal::Unsealed { place: None })));
    assert_eq!(recovery.ending(), Some(Ending::Unsealed { at: 0 }));
    assert_eq!(Journal::open(4, 1, &region, &mut [0; 20]), Err(Refusal::NotAppendable));

    let mut recovery = Recovery::new(geometry);
    assert_eq!(recovery.next(&region[..19], &mut [0; 20]), Some(Err(Refusal::WrongDevice)));
    assert_eq!(recovery.ending(), Some(Ending::Incomplete { at: 0 }));
}

/// The first refusal of a recovery over the region, through a page that takes a tail in chunks; a scan's is the same.
fn refusal(region: &[u8; 64]) -> Option<Refusal> {
    let mut recovery = Recovery::new(Geometry::new(64, 4, 1).unwrap());
    let (mut scan, mut page) = (Scan::new(4), [0; 21]);
    loop {
        let of_recovery = recovery.next(region, &mut page).map(|found| found.map(|found| found.offset));
        let of_scan = scan.next(region).map(|found| found.map(|found| found.offset));
        assert_eq!(of_recovery, of_scan);
        if !matches!(of_scan, Some(Ok(_))) {
            return of_scan.and_then(Result::err);
        }
    }
}

#[test]
fn a_refusal_says_which_byte_is_not_erased() {
    // A record that is skipped, 20 bytes long, and erased bytes behind it.
    let mut region = [0xFF; 64];
    encode(RecordRef::TimerFired { seq: 7 }, 4, &mut region).unwrap();
    region[16..20].fill(0xFF);
    assert_eq!(refusal(&region), None);
    region[59] = 0xFE;
    region[62] = 0;
    let tail = Refusal::IntegrityFailed { place: Some(59) };
    assert_eq!(refusal(&region), Some(tail));
    assert_eq!((tail.number(), tail.place()), (9, Some(59)));
    assert_eq!(tail.to_string(), "refusal 9: erased bytes, and behind them one that is not (byte 59 is not 0xFF)");
    // Among the first twelve it spoils the header, and the refusal has no place.
    region[31] = 0xFE;
    assert_eq!(refusal(&region), Some(Refusal::IntegrityFailed { place: None }));
    // In the slot it keeps the record from being skipped. Of kind 7 none is.
    region[18] = 0xFE;
    assert_eq!(refusal(&region), Some(Refusal::Unsealed { place: Some(18) }));
    encode(RecordRef::RunFailed { error: b"" }, 4, &mut region).unwrap();
    region[18] = 0xFE;
    assert_eq!(refusal(&region), Some(Refusal::Unsealed { place: None }));
}

/// One step of a recovery: whether it found a record, with the reads that have been made by then.
fn stepped(recovery: &mut Recovery, region: &[u8], page: &mut [u8]) -> (Result<bool, Refusal>, u64) {
    let found = recovery.next(region, page).transpose().map(|found| found.is_some());
    (found, recovery.reads())
}

#[test]
fn reads_are_counted_from_the_start_on() {
    let (region, _) = appended();
    let mut page = [0; 256];
    let mut recovery = Recovery::new(Geometry::new(region.len(), 4, 1).unwrap());
    assert_eq!(recovery.reads(), 0);
    // Two reads for each record: its header, and all of it.
    for (before, _) in RECORDS.iter().enumerate() {
        let reads = 2 * (before as u64 + 1);
        assert_eq!(stepped(&mut recovery, &region, &mut page), (Ok(true), reads));
        // A state that was kept goes on from its own count.
        recovery = Recovery(recovery.0);
    }
    // The 64 erased bytes take a header's read, and one more. Once it has ended there are no others.
    for _ in 0..2 {
        assert_eq!(stepped(&mut recovery, &region, &mut page), (Ok(false), 20));
    }
    assert_eq!(recovery.ending(), Some(Ending::Clean { append_at: region.len() as u32 - 64 }));
}

#[test]
fn reads_of_what_is_not_found_are_counted() {
    let geometry = Geometry::new(64, 4, 1).unwrap();
    // Through a page of 21 bytes, erased bytes take a read for each page-full, the last of one byte.
    let mut region = [0xFF; 64];
    assert_eq!(stepped(&mut Recovery::new(geometry), &region, &mut [0; 21]), (Ok(false), 5));
    // Those up to the page-full with a byte that is not erased.
    region[21] = 0;
    let refused = Err(Refusal::IntegrityFailed { place: Some(21) });
    assert_eq!(stepped(&mut Recovery::new(geometry), &region, &mut [0; 21]), (refused, 3));
    // A record that is skipped takes two, within the step that finds the next.
    encode(RecordRef::TimerFired { seq: 7 }, 4, &mut region).unwrap();
    region[16..20].fill(0xFF);
    encode(RecordRef::TimerFired { seq: 7 }, 4, &mut region[20..]).unwrap();
    assert_eq!(stepped(&mut Recovery::new(geometry), &region, &mut [0; 64]), (Ok(true), 4));
    // A header that is none takes one.
    region[0] = 0;
    let refused = Err(Refusal::IntegrityFailed { place: None });
    assert_eq!(stepped(&mut Recovery::new(geometry), &region, &mut [0; 64]), (refused, 1));
    // What is refused before any read takes none.
    let mut recovery = Recovery(ffi::Recovery { reads: 7, ..Recovery::new(geometry).0 });
    assert_eq!(stepped(&mut recovery, &region[1..], &mut [0; 64]), (Err(Refusal::WrongDevice), 7));
}

#[test]
fn a_read_that_the_page_does_not_hold_is_not_counted() {
    let mut region = [0xFF; 20];
    encode(RecordRef::TimerFired { seq: 7 }, 4, &mut region).unwrap();
    for (page, needed, reads) in [(11, 12, 0), (12, 20, 1), (19, 20, 1)] {
        let mut recovery = Recovery::new(Geometry::new(20, 4, 1).unwrap());
        let refused = Err(Refusal::PageTooSmall { needed });
        assert_eq!(stepped(&mut recovery, &region, &mut vec![0; page]), (refused, reads));
        assert_eq!(recovery.ending(), Some(Ending::Incomplete { at: 0 }));
        assert_eq!(stepped(&mut recovery, &region, &mut [0; 20]), (Ok(false), reads));
    }
    // The page counts by whole read units: 31 bytes hold one of 16.
    let mut recovery = Recovery::new(Geometry::new(20, 4, 16).unwrap());
    assert_eq!(stepped(&mut recovery, &region, &mut [0; 31]), (Err(Refusal::PageTooSmall { needed: 20 }), 1));
}

#[test]
fn reads_stop_at_the_largest_number() {
    let (region, _) = appended();
    for reads in [u64::MAX - 2, u64::MAX - 1, u64::MAX] {
        let fresh = Recovery::new(Geometry::new(region.len(), 4, 1).unwrap());
        let mut recovery = Recovery(ffi::Recovery { reads, ..fresh.0 });
        for _ in 0..2 {
            assert_eq!(stepped(&mut recovery, &region, &mut [0; 256]), (Ok(true), u64::MAX));
        }
    }
}

/// A shortest record for program units of up to 4 bytes, made by hand: kind 6, sequence 0, no payload.
const SHORTEST: [u8; 20] =
    [0x57, 0x4D, 1, 6, 0, 0, 0, 0, 0, 0, 0x67, 0x16, 0x81, 0x7B, 0x5A, 0x6C, 0x01, 0x7B, 0x5A, 0x6C];

#[test]
fn the_costliest_region_is_shortest_records() {
    let mut region = [0x5A; 64];
    costliest(4, 1, &mut region).unwrap();
    assert_eq!(region[..60], SHORTEST.repeat(3));
    assert_eq!(region[60..], [0xFF; 4]);
    // The read unit changes nothing of it; the program unit changes padding and slot.
    let mut other = [0; 64];
    costliest(4, 4096, &mut other).unwrap();
    assert_eq!(other, region);
    costliest(1, 1, &mut other[..20]).unwrap();
    assert_eq!(other[..20], [&SHORTEST[..17], &[0xFF; 3]].concat());
    // One that holds no record is erased, and the byte behind it stays.
    other[..20].fill(0x5A);
    costliest(4, 1, &mut other[..19]).unwrap();
    assert_eq!(other[..20], [&[0xFF; 19][..], &[0x5A]].concat());
    costliest(4, 1, &mut []).unwrap();
}

#[test]
fn the_costliest_region_is_refused_for_its_settings() {
    let mut region = [0x5A; 64];
    for (program_size, read_size) in [(3, 1), (0, 1), (512, 1), ((1 << 32) + 4, 1), (4, 0), (4, 3), (4, 8192)] {
        assert_eq!(costliest(program_size, read_size, &mut region), Err(Refusal::Settings));
    }
    assert_eq!(region, [0x5A; 64]);
    let mut long = vec![0x5A; 16_777_217];
    assert_eq!(costliest(4, 1, &mut long), Err(Refusal::Settings));
    assert!(long.iter().all(|&byte| byte == 0x5A));
}

/// The reads of a recovery to its end, through a page of the region's length in whole read units.
fn reads_of(program_size: usize, read_size: usize, region: &[u8]) -> u64 {
    let mut page = vec![0; region.len().next_multiple_of(read_size)];
    let mut recovery = Recovery::new(Geometry::new(region.len(), program_size, read_size).unwrap());
    while recovery.next(region, &mut page).transpose().unwrap().is_some() {}
    assert!(matches!(recovery.ending(), Some(Ending::Clean { .. })));
    recovery.reads()
}

#[test]
fn the_costliest_region_meets_the_bound() {
    // The shortest record by hand: 16 in whole program units, and one unit more.
    for (program_size, shortest) in [(1, 17), (2, 18), (4, 20), (8, 24), (16, 32), (32, 64), (64, 128), (256, 512)] {
        for len in 0..2 * shortest + 20 {
            let tail = match len % shortest {
                0 => 0,
                1..=11 => 1,
                _ => 2,
            };
            let bound = (2 * (len / shortest) + tail) as u64;
            let mut region = vec![0; len];
            for read_size in [1, 8, 16, 512, 4096] {
                costliest(program_size, read_size, &mut region).unwrap();
                let reads = reads_of(program_size, read_size, &region);
                assert_eq!(reads, bound, "units {program_size} and {read_size}, {len} bytes");
            }
        }
    }
}

/// In the struct's order.
fn written(counts: [u64; 5]) -> Written {
    let [payload_bytes, programmed_bytes, program_operations, barriers, uncommitted_appends] = counts;
    Written { payload_bytes, programmed_bytes, program_operations, barriers, uncommitted_appends }
}

#[test]
fn counts_stop_and_add() {
    let most = written([u64::MAX, 20, 2, 2, u64::MAX]);
    let one = written([1, 24, 2, 2, 1]);
    assert_eq!(most.plus(one), written([u64::MAX, 44, 4, 4, u64::MAX]));
    assert_eq!((one.overhead_bytes(), most.overhead_bytes()), (23, 0));
    assert_eq!(written([1, u64::MAX, 0, 0, 0]).overhead_bytes(), u64::MAX - 1);
}

#[test]
fn an_opening_goes_on_from_counts_up_to_2_to_the_62nd() {
    const MOST: u64 = 1 << 62;
    let (region, mut page) = ([0xFF; 64], [0; 64]);
    for place in 0..5 {
        let mut counts = [MOST; 5];
        counts[place] += 1;
        let above = written(counts);
        assert_eq!(Journal::open_with(above, 4, 1, &region, &mut page), Err(Refusal::CountTooLarge));
        assert_eq!(Journal::open_with(above, 3, 1, &region, &mut page), Err(Refusal::Settings));
        assert_eq!(Journal::open_with(above, 4, 1, &region, &mut []), Err(Refusal::CountTooLarge));
        assert_eq!(page, [0; 64]);
    }
    let most = written([MOST; 5]);
    assert_eq!(Journal::open_with(most, 4, 1, &region, &mut []), Err(Refusal::PageTooSmall { needed: 12 }));
    assert_eq!(Journal::open_with(most, 4, 1, &region, &mut page).unwrap().written(), most);
    assert_eq!(page, [0xFF; 64]);
    let refusal = Refusal::CountTooLarge;
    assert_eq!((refusal.number(), refusal.place()), (24, None));
    assert_eq!(refusal.to_string(), "refusal 24: a count to go on from is above 2 to the 62nd");
}

#[test]
fn counts_go_on_over_openings() {
    let (mut region, mut page) = ([0xFF; 64], [0; 64]);
    let fired = RecordRef::TimerFired { seq: 7 };
    let mut journal = Journal::open_with(written([1, 2, 3, 4, 5]), 4, 1, &region, &mut page).unwrap();
    journal.stage(fired, &mut region, &mut page).unwrap();
    assert_eq!(journal.written(), written([1, 18, 4, 4, 6]));
    // The append is given up, and stays one that was not committed; the record is skipped.
    let mut journal = Journal::open_with(journal.written(), 4, 1, &region, &mut page).unwrap();
    journal.stage(fired, &mut region, &mut page).unwrap();
    assert_eq!(journal.written(), written([1, 34, 5, 4, 7]));
    journal.payload_barrier(&region).unwrap();
    assert_eq!(journal.commit(&mut region), Ok(written([0, 20, 2, 2, 0])));
    assert_eq!((journal.offset(), journal.written()), (40, written([1, 38, 6, 6, 6])));
    // An opening without counts starts at zero.
    assert_eq!(Journal::open(4, 1, &region, &mut page).unwrap().written(), Written::default());
}

#[test]
fn no_count_goes_below_zero() {
    let (mut region, mut page) = ([0xFF; 64], [0; 64]);
    let mut journal = Journal::open(4, 1, &region, &mut page).unwrap();
    journal.stage(RecordRef::TimerFired { seq: 7 }, &mut region, &mut page).unwrap();
    journal.0.written = Written::default();
    journal.payload_barrier(&region).unwrap();
    journal.commit(&mut region).unwrap();
    assert_eq!(journal.written(), written([0, 4, 1, 2, 0]));
}
