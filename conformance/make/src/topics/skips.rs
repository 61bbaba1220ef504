//! Records that were never committed: those that are skipped, alone and in chains, and those that end the reading.

use super::{behind_one, bytes, completed, fired, one_of_each, scheduled};
use crate::laid::{laid, Laid};
use crate::set::{region, Set};

pub fn add(set: &mut Set) {
    each_kind(set);
    chains(set);
    at_the_end(set);
    before_an_ending(set);
    wide(set);
}

fn open(record: Laid) -> Laid {
    record.unsealed()
}

fn each_kind(set: &mut Set) {
    for record in one_of_each() {
        let kind = record.kind();
        let record = laid(record, 4);
        if [3, 4, 6].contains(&kind) {
            let alone = region(4).then(&open(record.clone())).erased(20);
            set.add(format!("skip-{kind}"), format!("kind {kind}, slot erased: skipped"), alone);
            let then = behind_one(4).then(&open(record.clone())).then(&record).erased(20);
            set.add(format!("skip-{kind}-then-found"), format!("kind {kind}, skipped, then found"), then);
        } else {
            let then = behind_one(4).then(&open(record.clone())).then(&record).erased(20);
            set.add(format!("open-{kind}"), format!("kind {kind}, slot erased: 10, not skipped"), then);
        }
    }
}

fn chains(set: &mut Set) {
    for count in [2, 3, 20] {
        let all = (0..count).fold(behind_one(4), |all, seq| all.then(&open(fired(seq, 4))));
        let tries = format!("{count} records skipped one after the other, then one found");
        set.add(format!("skip-chain-{count}"), tries, all.then(&fired(99, 4)).erased(20));
    }
    let kinds = [open(fired(1, 4)), open(completed(2, b"of another length", 4)), open(completed(3, b"", 4).of_kind(4))];
    let all = kinds.iter().fold(behind_one(4), |all, record| all.then(record));
    set.add(
        "skip-chain-kinds",
        "skipped records of kinds 6, 3 and 4, of several lengths",
        all.then(&fired(9, 4)).erased(20),
    );
    let all = (0..4).fold(region(4), |all, seq| all.then(&open(fired(seq, 4))).then(&fired(seq, 4)));
    set.add("skip-alternate", "skipped and found in turn", all.erased(20));
    let all = (0..1_900).fold(region(1), |all, seq| all.then(&open(fired(seq, 1))));
    set.add("skip-chain-1900", "1,900 records skipped one after the other", all.then(&fired(1, 1)).up_to(32_400));
}

fn at_the_end(set: &mut Set) {
    let all = behind_one(4).then(&open(fired(8, 4)));
    set.add("skip-last", "a skipped record at the region's very end: clean at N", all.clone());
    let alone = region(4).then(&open(fired(8, 4)));
    set.add("skip-only", "nothing but a skipped record: clean at N, none found", alone);
    for count in [1, 11, 12] {
        let tries = format!("a skipped record, then {} erased: clean", bytes(count));
        set.add(format!("skip-last-erased-{count}"), tries, all.clone().erased(count));
        let refusal = if count < 12 { 4 } else { 9 };
        let tries = format!("a skipped record, then {}, the last not erased: {refusal}", bytes(count));
        set.add(format!("skip-last-spoilt-{count}"), tries, all.clone().erased(count - 1).bytes(&[0x7F]));
    }
    let twice = all.then(&open(completed(9, b"the last", 4)));
    set.add("skip-last-two", "two skipped records at the region's very end", twice);
}

fn before_an_ending(set: &mut Set) {
    let all = behind_one(4).then(&open(fired(8, 4)));
    let mut add = |name: &str, tries: &str, region| {
        set.add(format!("skip-then-{name}"), format!("a skipped record, then {tries}"), region)
    };
    add("open", "one that is not skipped: 10 at the second", all.clone().then(&open(scheduled(9, 4))).erased(20));
    add("damaged", "a damaged header: 9 at the second", all.clone().then(&fired(9, 4).flip(5, 1)).erased(20));
    add(
        "malformed",
        "one that its kind does not allow: 8",
        all.clone().then(&open(completed(9, b"x", 4).of_kind(6).unsealed())),
    );
    add("unknown", "an unknown kind, sealed: 6", all.clone().then(&fired(9, 4).of_kind(10)).erased(20));
    add("cut-off", "one that the region's end cuts off: 4", all.clone().then(&fired(9, 4)).cut(59));
    add("hole", "a hole, then a record: 9 at the hole", all.erased(20).then(&fired(9, 4)));
}

/// Skipped records with padding and long slots.
fn wide(set: &mut Set) {
    for unit in [1, 2, 16, 64, 256] {
        let record = completed(7, b"padded", unit);
        let all = region(unit).then(&open(record.clone())).then(&record).erased(12);
        set.add(format!("skip-unit-{unit}"), format!("a = {unit}: skipped, then found"), all);
        let slot = record.slot();
        for (name, place) in [("first", slot), ("last", record.len() - 1)] {
            let spoilt = open(record.clone()).flip(place, 0x40);
            let tries = format!("a = {unit}: the {name} byte of an erased slot has one bit programmed: 10");
            set.add(format!("skip-not-{unit}-{name}"), tries, region(unit).then(&spoilt).then(&record).erased(12));
        }
    }
    let long = completed(7, &[0x42; 600], 256);
    set.add(
        "skip-long",
        "a = 256: a skipped record of several units",
        region(256).then(&open(long)).then(&fired(8, 256)),
    );
}
