//! What follows the last record: short tails, erased or not, and holes before something that is not erased.

use super::{behind_one, bytes, fired};
use crate::set::{region, Set};

pub fn add(set: &mut Set) {
    short(set);
    alone(set);
    spoilt(set);
    holes(set);
    chunks(set);
}

/// Tails of 1 to 11 bytes behind a record.
fn short(set: &mut Set) {
    for count in 1..=11 {
        let erased = behind_one(1).erased(count);
        set.add(format!("tail-{count}"), format!("{} behind a record, erased: clean", bytes(count)), erased.clone());
        let end = fired(7, 1).len() + count;
        let tries = format!("{} behind a record, the last not erased: 4", bytes(count));
        set.add(format!("tail-{count}-spoilt"), tries, erased.put(end - 1, 0));
    }
    let start = fired(7, 1).len();
    for (name, at, byte) in [("first", 0, 0x57), ("middle", 5, 0xFE), ("last-bit", 10, 0x7F)] {
        let tries = format!("11 bytes behind a record, all erased but byte {at}: 4");
        set.add(format!("tail-11-{name}"), tries, behind_one(1).erased(11).put(start + at, byte));
    }
    for count in [1, 2, 11] {
        let tries = format!("behind a record {} of another: 4", bytes(count));
        set.add(format!("tail-begun-{count}"), tries, behind_one(1).bytes(&fired(8, 1).bytes()[..count]));
    }
    set.add("tail-zero-11", "11 bytes 0 behind a record: 4", behind_one(1).bytes(&[0; 11]));
    set.add("tail-zero-12", "12 bytes 0 behind a record: 9", behind_one(1).bytes(&[0; 12]));
    set.add("tail-255", "a = 256: 255 erased bytes behind a record: clean", behind_one(256).erased(255));
    set.add("tail-11-read-16", "r = 16: 11 erased bytes behind a record: clean", behind_one(1).read(16).erased(11));
    set.add("tail-11-read-16-spoilt", "r = 16: 11 bytes 0 behind a record: 4", behind_one(1).read(16).bytes(&[0; 11]));
}

/// Regions that hold no record.
fn alone(set: &mut Set) {
    set.add("region-0", "a region of no bytes: clean at 0", region(4));
    for count in [1, 11, 12, 13, 100] {
        set.add(format!("region-{count}"), format!("{}, erased: clean at 0", bytes(count)), region(4).erased(count));
        let refusal = if count < 12 { 4 } else { 9 };
        let tries = format!("{}, all erased but the last: {refusal}", bytes(count));
        set.add(format!("region-{count}-spoilt"), tries, region(4).erased(count - 1).bytes(&[0]));
    }
    set.add("region-32768", "32,768 erased bytes: clean at 0", region(4).erased(32_768));
    set.add("region-zero", "40 bytes 0: 9 at 0", region(4).bytes(&[0; 40]));
}

/// Twelve erased bytes or more, and behind them one that is not.
fn spoilt(set: &mut Set) {
    for at in [12, 13, 15, 16, 19, 20, 39] {
        let tries = format!("40 bytes behind a record, all erased but byte {at}: 9");
        set.add(format!("spoilt-{at}"), tries, behind_one(4).erased(40).put(20 + at, 0));
    }
    for (name, byte) in [("low-bit", 0xFE), ("high-bit", 0x7F)] {
        let tries = format!("40 bytes behind a record, the last {byte:#04x}: 9");
        set.add(format!("spoilt-{name}"), tries, behind_one(4).erased(39).bytes(&[byte]));
    }
    set.add("spoilt-11", "byte 11 of 40 erased ones is not: 9", behind_one(4).erased(40).put(31, 0));
    set.add("spoilt-0", "byte 0 of 40 erased ones is not: 9", behind_one(4).erased(40).put(20, 0));
}

/// Erased bytes between two records.
fn holes(set: &mut Set) {
    for count in [1, 4, 11, 12, 13, 20, 100] {
        let tries = format!("a hole of {} between two records: 9 at the hole", bytes(count));
        set.add(format!("hole-{count}"), tries, behind_one(4).erased(count).then(&fired(8, 4)).erased(20));
    }
    set.add("hole-at-0", "a hole of 20 bytes before the first record: 9 at 0", region(4).erased(20).then(&fired(8, 4)));
    set.add(
        "hole-open",
        "a hole, then a record with an erased slot: 9",
        behind_one(4).erased(20).then(&fired(8, 4).unsealed()),
    );
    let erased = fired(8, 4).put(0, &[0xFF; 12]);
    set.add("hole-header", "a record whose header alone is erased: 9", behind_one(4).then(&erased).erased(20));
}

/// Long erased tails, spoilt where a reader by chunks may not look.
fn chunks(set: &mut Set) {
    for at in [4_095, 4_096, 4_199] {
        let tries = format!("4,200 bytes, all erased but byte {at}: 9");
        set.add(format!("chunk-{at}"), tries, region(4).erased(4_200).put(at, 0xEF));
    }
    set.add("chunk-32767", "32,768 bytes, all erased but the last: 9", region(4).erased(32_767).bytes(&[0xFE]));
}
