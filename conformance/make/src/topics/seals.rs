//! Slots: torn at every bit, torn between bytes, sealed by other rules; padding; checks with telling bytes.

use super::{behind_one, completed, fired, scheduled};
use crate::laid::Laid;
use crate::set::{region, Set};
use jardolento::frame_check;

pub fn add(set: &mut Set) {
    one_byte(set);
    four_bytes(set);
    prefixes(set);
    wide(set);
    other_rules(set);
    telling_checks(set);
    padding(set);
    frame_damage(set);
}

/// Every bit of a slot of one byte, from both sides.
fn one_byte(set: &mut Set) {
    let record = fired(7, 1);
    let slot = record.slot();
    for bit in 0..8 {
        let tries = format!("a = 1: erased slot with bit {bit} programmed: 10, not skipped");
        let torn = record.clone().unsealed().flip(slot, 1 << bit);
        set.add(format!("slot-1-begun-{bit}"), tries, region(1).then(&torn).then(&fired(8, 1)).erased(12));
        let tries = format!("a = 1: seal with bit {bit} turned: 10");
        let torn = record.clone().flip(slot, 1 << bit);
        set.add(format!("slot-1-turned-{bit}"), tries, region(1).then(&torn).then(&fired(8, 1)).erased(12));
    }
}

/// Every bit of a slot of four bytes.
fn four_bytes(set: &mut Set) {
    let record = completed(7, b"ok", 4);
    let slot = record.slot();
    for bit in 0..32 {
        let (byte, mask) = (bit / 8, 1 << (bit % 8));
        let tries = format!("a = 4: bit {} of seal byte {byte} turned: 10", bit % 8);
        let torn = record.clone().flip(slot + byte, mask);
        set.add(format!("slot-4-turned-{byte}-{}", bit % 8), tries, behind_one(4).then(&torn).erased(12));
        if byte == 0 || byte == 3 {
            let tries = format!("a = 4: erased slot with bit {} of byte {byte} programmed: 10", bit % 8);
            let torn = record.clone().unsealed().flip(slot + byte, mask);
            set.add(format!("slot-4-begun-{byte}-{}", bit % 8), tries, behind_one(4).then(&torn).erased(12));
        }
    }
}

/// A slot of which some bytes are programmed and the others erased.
fn prefixes(set: &mut Set) {
    for (kind, record) in [(6, fired(7, 4)), (2, scheduled(7, 4))] {
        let slot = record.slot();
        for count in 1..4 {
            let tries = format!("kind {kind}: the first {count} of 4 seal bytes programmed: 10");
            let torn = record.clone().put(slot + count, &[0xFF; 4][count..]);
            set.add(format!("slot-first-{count}-{kind}"), tries, region(4).then(&torn).erased(12));
        }
        let tries = format!("kind {kind}: the last 3 of 4 seal bytes programmed: 10");
        set.add(format!("slot-last-3-{kind}"), tries, region(4).then(&record.put(slot, &[0xFF])).erased(12));
    }
}

/// Slots longer than the check.
fn wide(set: &mut Set) {
    let record = completed(7, b"ok", 8);
    let slot = record.slot();
    let mut add = |name: &str, tries: &str, record: Laid| set.add(name, tries, region(8).then(&record).erased(12));
    add("slot-8-half", "a = 8: the second half of the slot erased: 10", record.clone().put(slot + 4, &[0xFF; 4]));
    add("slot-8-other", "a = 8: the second half of the slot 0: 10", record.clone().put(slot + 4, &[0; 4]));
    add("slot-8-first-half", "a = 8: the first half of the slot erased: 10", record.put(slot, &[0xFF; 4]));
    for place in [0, 3, 4, 127, 128, 255] {
        let record = completed(7, b"ok", 256);
        let slot = record.slot();
        let tries = format!("a = 256: one bit of seal byte {place} turned: 10");
        set.add(format!("slot-256-{place}"), tries, region(256).then(&record.flip(slot + place, 2)));
        let open = completed(7, b"ok", 256).unsealed().flip(slot + place, 2);
        let tries = format!("a = 256: erased slot with one bit of byte {place} programmed: 10");
        set.add(format!("slot-256-begun-{place}"), tries, region(256).then(&open));
    }
}

/// Slots as another rule than the seal's would have them.
fn other_rules(set: &mut Set) {
    for unit in [1, 4, 8] {
        let record = fired(7, unit);
        let (end, slot) = (record.frame_len(), record.slot());
        let check = record.bytes()[end - 4..end].to_vec();
        let fill = |byte: &dyn Fn(usize) -> u8| (0..unit).map(byte).collect::<Vec<_>>();
        let mut add = |name: &str, tries: &str, bytes: Vec<u8>| {
            let torn = record.clone().put(slot, &bytes);
            set.add(
                format!("seal-{name}-{unit}"),
                format!("a = {unit}: {tries}: 10"),
                region(unit).then(&torn).erased(12),
            );
        };
        add("unmasked", "the check's bytes in the slot, without AND 0x7F", fill(&|i| check[i % 4]));
        add("reversed", "the seal with its most significant byte first", fill(&|i| check[3 - i % 4] & 0x7F));
        add("zero", "a slot of bytes 0", fill(&|_| 0));
        add("7f", "a slot of bytes 0x7F", fill(&|_| 0x7F));
        add("complement", "the complement of the check, AND 0x7F", fill(&|i| !check[i % 4] & 0x7F));
    }
    let (record, other) = (fired(7, 4), fired(8, 4));
    let slot = record.slot();
    let swapped = record.put(slot, &other.bytes()[slot..]);
    set.add("seal-of-another", "the seal of another record: 10", region(4).then(&swapped).then(&other));
}

/// Records whose check has bytes that a wrong rule treats in another way; one sealed, one with its slot erased.
fn telling_checks(set: &mut Set) {
    let mut add = |name: &str, tries: &str, wanted: &dyn Fn([u8; 4]) -> bool| {
        let check = |seq: &u32| frame_check(&fired(*seq, 4).bytes()[..12]).to_le_bytes();
        let seq = (0..).find(|seq| wanted(check(seq))).expect("some sequence has such a check");
        set.add(name, tries, region(4).then(&fired(seq, 4)).then(&fired(seq, 4).unsealed()).erased(12));
    };
    add("check-low", "a check of bytes below 0x80: the seal is the check", &|check| {
        check.iter().all(|byte| *byte < 0x80)
    });
    add("check-high", "a check of bytes above 0x7F", &|check| check.iter().all(|byte| *byte > 0x7F));
    add("check-first-ff", "a check with first byte 0xFF: sealed and skipped", &|check| check[0] == 0xFF);
    add("check-last-ff", "a check with last byte 0xFF: sealed and skipped", &|check| check[3] == 0xFF);
    add("check-first-zero", "a check with first byte 0", &|check| check[0] == 0);
    add("check-first-80", "a check with first byte 0x80, whose seal is 0", &|check| check[0] == 0x80);
}

fn padding(set: &mut Set) {
    for (name, record) in [("3", completed(7, b"pad", 16)), ("2", scheduled(7, 16)), ("6", fired(7, 32))] {
        let (frame, slot) = (record.frame_len(), record.slot());
        let unit = record.len() - slot;
        for (place, at) in [("first", frame), ("middle", (frame + slot) / 2), ("last", slot - 1)] {
            let spoilt = record.clone().put(at, &[0xFE]);
            let tries = format!("kind {name}: one bit of the {place} padding byte programmed");
            let sealed = region(unit).then(&spoilt).erased(12);
            set.add(format!("padding-{name}-{place}"), format!("{tries}, sealed: found"), sealed);
            let open = region(unit).then(&spoilt.unsealed()).erased(12);
            set.add(format!("padding-{name}-{place}-open"), format!("{tries}, slot erased: 10"), open);
        }
    }
    let record = completed(7, b"pad", 16);
    let (frame, slot) = (record.frame_len(), record.slot());
    let spoilt = record.put(frame, &vec![0; slot - frame]);
    set.add("padding-all", "all padding 0, sealed: found", region(16).then(&spoilt).then(&fired(8, 16)));
}

fn frame_damage(set: &mut Set) {
    let record = completed(7, b"damage", 4);
    let end = record.frame_len();
    let mut add = |name: &str, tries: &str, record: Laid| {
        set.add(format!("damage-{name}"), tries, behind_one(4).then(&record).then(&fired(8, 4)).erased(12));
    };
    for place in 0..4 {
        let tries = format!("byte {place} of the frame check turned, sealed: 9, and nothing is read behind it");
        add(&format!("check-{place}"), &tries, record.clone().flip(end - 4 + place, 0x10));
    }
    add("payload-first", "the first payload byte turned, sealed: 9", record.clone().flip(12, 0x80));
    add("payload-last", "the last payload byte turned, sealed: 9", record.clone().flip(end - 5, 1));
    add("open", "a payload byte turned, slot erased: 9, not skipped", record.clone().unsealed().flip(13, 1));
    add(
        "sealed-anew",
        "the frame check turned, sealed by the turned one: 9",
        record.clone().flip(end - 1, 1).sealed_anew(),
    );
    add("check-erased", "the frame check erased, slot erased: 9", record.clone().put(end - 4, &[0xFF; 4]).unsealed());
    add("body-erased", "all behind the header erased: 9", record.clone().put(12, &vec![0xFF; record.len() - 12]));
    add("check-reversed", "the frame check most significant byte first: 9", {
        let check = record.bytes()[end - 4..end].iter().rev().copied().collect::<Vec<_>>();
        record.put(end - 4, &check)
    });
}
