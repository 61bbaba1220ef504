//! Units, payload lengths at their limits, records that just fit and just do not, full regions.

use super::{behind_one, completed, fired, one_of_each, UNITS};
use crate::laid::{laid, laid_with, Laid};
use crate::set::{region, Set};

const LONGEST: usize = 32_768;

pub fn add(set: &mut Set) {
    units(set);
    lengths(set);
    long(set);
    wrapping(set);
    fits(set);
    cut_off(set);
    full(set);
}

fn units(set: &mut Set) {
    program_units(set);
    read_units(set);
}

fn program_units(set: &mut Set) {
    for unit in UNITS {
        let open = completed(5, b"cut", unit).unsealed();
        let five = one_of_each()[..5].iter().fold(region(unit), |all, record| all.then(&laid(*record, unit)));
        let all = five.then(&open).then(&fired(9, unit)).erased(2 * unit + 5);
        set.add(format!("unit-{unit}"), format!("six records and a skipped one, a = {unit}"), all);
    }
}

fn read_units(set: &mut Set) {
    for power in 0..=12 {
        let read = 1 << power;
        let all = behind_one(4).then(&completed(5, b"cut", 4).unsealed()).then(&completed(5, b"ok", 4)).erased(21);
        set.add(format!("read-{read}"), format!("a = 4, r = {read}, N no multiple of either"), all.read(read));
    }
    for read in UNITS {
        let all = behind_one(256).then(&completed(5, b"cut", 256).unsealed()).then(&fired(9, 256)).erased(256);
        set.add(format!("read-within-{read}"), format!("a = 256, r = {read}, N a multiple of both"), all.read(read));
    }
    set.add("read-above", "a = 1, r = 4096, and a tail of 5 bytes", behind_one(1).read(4096).erased(5));
}

fn lengths(set: &mut Set) {
    for unit in [1, 4, 16] {
        let all = (0..=17).fold(region(unit), |all, len| all.then(&completed(len as u32, &[0x5A; 17][..len], unit)));
        set.add(format!("payload-0-to-17-{unit}"), format!("payloads of 0 to 17 bytes, a = {unit}"), all.erased(20));
    }
    let whole = region(256).then(&completed(1, &[1; 240], 256)).then(&completed(2, &[2; 241], 256));
    set.add("payload-unit", "a = 256: a frame of just one unit, and one byte more", whole.then(&fired(3, 256)));
    for (name, byte) in [("erased", 0xFF), ("zero", 0)] {
        let all = region(4).then(&completed(1, &[byte; 30], 4)).then(&completed(2, &[byte; 30], 4).unsealed());
        let tries = format!("payloads of bytes {byte:#04x}, found and skipped");
        set.add(format!("payload-{name}"), tries, all.then(&fired(3, 4)).erased(20));
    }
    let inner = fired(9, 4);
    let outer = completed(1, inner.bytes(), 4);
    set.add("payload-record", "a record in a payload: only the outer one is found", region(4).then(&outer).erased(8));
    let tries = "a damaged record with a good one in its payload: 9, and nothing is found in it";
    set.add("payload-record-damaged", tries, region(4).then(&outer.flip(4, 1)).erased(8));
}

fn long(set: &mut Set) {
    for len in [127, 128, 255, 256, 257, 511, 512, 1023, 1024, 4095, 4096, 16_383, 16_384] {
        let all = region(4).then(&completed(1, &vec![0xC3; len], 4)).then(&fired(2, 4)).erased(20);
        set.add(format!("payload-{len}"), format!("a payload of {len} bytes"), all);
    }
    for (kind, len) in [(1, 300), (4, 300), (7, 300), (8, 300)] {
        let all = region(2).then(&laid_with(kind, 0, &vec![0x3C; len], 2)).then(&fired(2, 2)).erased(3);
        set.add(format!("payload-{kind}-{len}"), format!("kind {kind} with a payload of {len} bytes"), all);
    }
    for (unit, len) in [(1, LONGEST - 17), (256, LONGEST - 512 + 240)] {
        let all = region(unit).then(&completed(1, &vec![0x81; len], unit));
        set.add(
            format!("payload-longest-{unit}"),
            format!("a = {unit}: the longest payload that fits, {len} bytes"),
            all,
        );
        let over = completed(1, &vec![0x81; len + 1], unit);
        let tries = format!("a = {unit}: a payload one byte longer than fits, cut off by the end: 4");
        set.add(format!("payload-over-{unit}"), tries, region(unit).then(&over).cut(LONGEST));
    }
}

/// Payload lengths at which a length of 15 or 16 bits would begin again at 0.
fn wrapping(set: &mut Set) {
    for (unit, len) in
        [(4, 32_768_u16), (1, 65_519), (1, 65_520), (1, 65_535), (4, 65_516), (256, 65_279), (256, 65_535)]
    {
        let record = fired(7, unit).put(8, &len.to_le_bytes()).header_anew();
        let tries = format!("a = {unit}: a header that announces {len} bytes, more than the region has: 4");
        set.add(format!("announced-{len}-{unit}"), tries, behind_one(unit).then(&record).erased(40));
    }
}

fn fits(set: &mut Set) {
    for unit in [1, 4, 16, 256] {
        let record = completed(1, b"fits?", unit);
        let len = record.len();
        set.add(format!("fits-{unit}"), format!("a = {unit}: a record of just N bytes"), region(unit).then(&record));
        let short = region(unit).then(&record).cut(len - 1);
        set.add(format!("fits-not-{unit}"), format!("a = {unit}: a record of N + 1 bytes: 4"), short);
        let second = behind_one(unit).then(&record);
        set.add(format!("fits-second-{unit}"), format!("a = {unit}: the second record just fits"), second.clone());
        let at = fired(7, unit).len() + len - 1;
        set.add(
            format!("fits-second-not-{unit}"),
            format!("a = {unit}: the second record just does not fit: 4"),
            second.cut(at),
        );
    }
    let record = completed(1, b"fits?", 16);
    for (name, len) in [("header", 12), ("frame-less", 20), ("frame", 21), ("body", 32)] {
        let tries = format!("a = 16: the region ends behind {len} bytes of a record of 48: 4");
        set.add(format!("fits-not-{name}"), tries, region(16).then(&record).cut(len));
    }
}

/// A record whose slot the region's end cuts off, and which has another fault too.
fn cut_off(set: &mut Set) {
    let record = completed(1, b"fits?", 16);
    let mut add = |name: &str, tries: &str, record: Laid| {
        let len = fired(7, 16).len() + record.len() - 1;
        set.add(
            format!("cut-off-{name}"),
            format!("cut off by the region's end, and {tries}"),
            behind_one(16).then(&record).cut(len),
        );
    };
    add("frame-check", "the frame check is wrong: 4, not 9", record.clone().flip(14, 1));
    add("malformed", "its kind has no such payload: 4, not 8", record.clone().of_kind(6));
    add("unknown", "of unknown kind: 4, not 6", record.clone().of_kind(10));
    add("open", "its slot erased: 4, not skipped", record.clone().unsealed());
    add("torn", "kind 2 with its slot erased: 4, not 10", super::scheduled(1, 16).unsealed());
    add("version", "of version 2: 7, not 4", record.clone().put(2, &[2]).anew());
    add("header-check", "the header check is wrong: 9, not 4", record.clone().flip(5, 1));
    add("erased-frame", "its payload and frame check erased: 4, not 9", record.put(12, &[0xFF; 9]));
}

fn full(set: &mut Set) {
    let count = LONGEST / 17;
    let all = (0..count).fold(region(1), |all, seq| all.then(&fired(seq as u32, 1)));
    set.add("full-1", format!("{count} records, a = 1, and a tail that is too short for another"), all.up_to(LONGEST));
    let all = (0..64).fold(region(256), |all, seq| all.then(&fired(seq, 256)));
    set.add("full-256", "64 records, a = 256, no byte left", all);
    let all = one_of_each().iter().fold(region(8), |all, record| all.then(&laid(*record, 8)));
    set.add("full-small", "one record of each kind, no byte left", all);
}
