//! Every kind, known and unknown; what a kind does not allow; sequences at both ends.

use super::{behind_one, bytes, completed, fired, one_of_each, scheduled};
use crate::frames::EXAMPLES;
use crate::laid::{laid, laid_with, Laid};
use crate::set::{region, Set};
use jardolento::RecordRef;

pub fn add(set: &mut Set) {
    for example in &EXAMPLES {
        set.add(example.name, example.tries, region(example.unit).then(&example.laid()).erased(20));
    }
    known(set);
    wrong_lengths(set);
    wrong_numbers(set);
    unknown(set);
    unknown_and_more(set);
    sequences(set);
}

fn known(set: &mut Set) {
    for record in one_of_each() {
        let kind = record.kind();
        set.add(
            format!("kind-{kind}"),
            format!("a record of kind {kind}"),
            region(4).then(&laid(record, 4)).erased(20),
        );
    }
    let all = one_of_each().iter().fold(region(4), |all, record| all.then(&laid(*record, 4)));
    set.add("kind-all", "one record of each kind, one behind the other", all.erased(20));
    for (kind, len) in [(1, 4), (3, 0), (4, 0), (7, 0), (8, 0)] {
        let least = laid_with(kind, 0, &[0; 4][..len], 4);
        set.add(
            format!("kind-{kind}-least"),
            format!("kind {kind} with its shortest payload, {len} bytes"),
            region(4).then(&least).erased(20),
        );
    }
    let most = RecordRef::TimerScheduled { seq: 9, clock_kind: 2, deadline: u64::MAX, armed_at: u64::MAX };
    set.add("kind-5-clock-2", "clock kind 2 and the greatest times", region(4).then(&laid(most, 4)).erased(20));
}

fn wrong_lengths(set: &mut Set) {
    let lengths =
        [(1, 0), (1, 3), (2, 0), (2, 7), (2, 9), (5, 0), (5, 16), (5, 18), (6, 1), (6, 4), (9, 0), (9, 3), (9, 5)];
    for (kind, len) in lengths {
        set.add(
            format!("malformed-{kind}-{len}"),
            format!("kind {kind} with a payload of {}, sealed: 8", bytes(len)),
            behind_one(4).then(&laid_with(kind, 0, &[1; 18][..len], 4)).erased(20),
        );
    }
    let open = laid_with(6, 7, &[1], 4).unsealed();
    set.add(
        "malformed-6-1-open",
        "timer fired with a payload, its slot erased: 8, not skipped",
        behind_one(4).then(&open),
    );
    let torn = laid_with(2, 7, &[1; 7], 4);
    let slot = torn.slot();
    set.add(
        "malformed-2-7-torn",
        "effect scheduled too short, its slot torn: 8, not 10",
        behind_one(4).then(&torn.flip(slot, 1)),
    );
}

fn wrong_numbers(set: &mut Set) {
    for clock in [0, 3, 255] {
        let mut payload = [0; 17];
        payload[0] = clock;
        let record = laid_with(5, 7, &payload, 4);
        let tries = format!("timer scheduled with clock kind {clock}");
        set.add(format!("malformed-clock-{clock}"), format!("{tries}, sealed: 8"), behind_one(4).then(&record));
        let tries = format!("{tries}, its slot erased: 8, not 10");
        set.add(format!("malformed-clock-{clock}-open"), tries, behind_one(4).then(&record.unsealed()));
    }
    for (kind, seq) in [(1, 1), (7, 1), (7, 256), (7, 1 << 24), (8, 1), (8, u32::MAX)] {
        let record = laid_with(kind, seq, b"lost", 4);
        let tries = format!("kind {kind}, which has sequence 0, with sequence {seq}");
        set.add(format!("malformed-{kind}-sequence-{seq}"), format!("{tries}, sealed: 8"), behind_one(4).then(&record));
    }
    let open = laid_with(7, 1, b"lost", 4).unsealed();
    set.add(
        "malformed-7-sequence-1-open",
        "kind 7 with sequence 1, its slot erased: 8, not 10",
        behind_one(4).then(&open),
    );
}

fn unknown(set: &mut Set) {
    // 19, 131 and 22, 134 are 3 and 6 with a further bit.
    for kind in [0, 10, 11, 19, 22, 131, 134, 255] {
        let record = fired(7, 4).of_kind(kind);
        set.add(
            format!("unknown-{kind}"),
            format!("unknown kind {kind}, sealed: 6"),
            behind_one(4).then(&record).then(&fired(8, 4)),
        );
        set.add(
            format!("unknown-{kind}-open"),
            format!("unknown kind {kind}, its slot erased: 10, not 6 and not skipped"),
            behind_one(4).then(&record.unsealed()).then(&fired(8, 4)),
        );
    }
}

fn unknown_and_more(set: &mut Set) {
    let record = completed(7, b"more", 16).of_kind(42);
    let (frame, slot) = (record.frame_len(), record.slot());
    let mut add = |name: &str, tries: &str, record: Laid| set.add(name, tries, behind_one(16).then(&record).erased(16));
    add("unknown-payload", "unknown kind with a payload, sealed: 6", record.clone());
    add("unknown-sequence", "unknown kind with the greatest sequence, sealed: 6", record.clone().of_sequence(u32::MAX));
    add("unknown-torn", "unknown kind, one bit of its slot turned: 10", record.clone().flip(slot + 5, 4));
    add("unknown-padding", "unknown kind, sealed, its padding spoilt: 6", record.clone().put(frame, &[0]));
    add(
        "unknown-padding-open",
        "unknown kind, slot erased, padding spoilt: 10",
        record.clone().put(frame, &[0]).unsealed(),
    );
    add("unknown-frame-check", "unknown kind, sealed, a payload bit turned: 9", record.clone().flip(13, 8));
    add("unknown-header-check", "unknown kind, sealed, a header bit turned: 9", record.clone().flip(4, 8));
    add("unknown-version", "unknown kind of version 2, sealed: 7", record.clone().put(2, &[2]).anew());
}

fn sequences(set: &mut Set) {
    let ends = [0, 1, 127, 128, 255, 256, 65_535, 65_536, 16_777_216, 2_147_483_647, 2_147_483_648, 4_294_967_295];
    let all = ends.iter().fold(region(4), |all, seq| all.then(&fired(*seq, 4)));
    set.add("sequence-ends", "sequences at the ends of each byte, and at both ends of all", all);
    for (name, seq) in [("sequence-first", 0), ("sequence-last", u32::MAX)] {
        let all = [2, 3, 4, 5, 6, 9].iter().fold(region(4), |all, kind| {
            let record = one_of_each().iter().find(|record| record.kind() == *kind).map(|record| laid(*record, 4));
            all.then(&record.expect("there is one of each kind").of_sequence(seq))
        });
        set.add(name, format!("every kind that has a sequence, with {seq}"), all.erased(20));
    }
    let any = region(4).then(&scheduled(9, 4)).then(&completed(9, b"ok", 4)).then(&fired(3, 4)).then(&fired(3, 4));
    set.add("sequence-order", "sequences that repeat and fall: all are found", any.erased(20));
}
