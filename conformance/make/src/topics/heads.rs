//! Headers: every byte damaged, checks computed anew over damage, checks of another kind, torn headers that agree.

use super::{behind_one, completed, fired, scheduled};
use crate::laid::Laid;
use crate::set::Set;
use jardolento::{frame_check, header_check};

pub fn add(set: &mut Set) {
    damaged(set);
    marks_and_versions(set);
    agreeing(set);
    other_checks(set);
    torn(set);
}

fn add_one(set: &mut Set, name: impl Into<String>, tries: impl Into<String>, record: Laid) {
    set.add(name, tries, behind_one(4).then(&record).then(&fired(9, 4)).erased(20));
}

/// One bit of each header byte turned, with the check as it was.
fn damaged(set: &mut Set) {
    for place in 0..12 {
        let tries = format!("header byte {place} turned, sealed: 9");
        add_one(set, format!("header-{place}"), tries, completed(8, b"ok", 4).flip(place, 0x20));
        let tries = format!("header byte {place} turned, slot erased: 9, not skipped");
        add_one(set, format!("header-{place}-open"), tries, completed(8, b"ok", 4).unsealed().flip(place, 1));
    }
}

fn marks_and_versions(set: &mut Set) {
    for (name, mark) in [("first", [0x56, 0x4D]), ("second", [0x57, 0x4C]), ("swapped", [0x4D, 0x57])] {
        let tries = format!("another mark ({name}), checks and seal computed anew: 9");
        add_one(set, format!("mark-{name}"), tries, fired(8, 4).put(0, &mark).anew());
    }
    for version in [0, 2, 255] {
        let record = fired(8, 4).put(2, &[version]);
        let tries = format!("version {version}, checks and seal computed anew: 7");
        add_one(set, format!("version-{version}"), tries, record.clone().anew());
        let tries = format!("version {version}, the header check as it was: 9");
        add_one(set, format!("version-{version}-damaged"), tries, record);
    }
    let record = completed(8, b"ok", 4).put(2, &[2]).anew();
    add_one(set, "version-2-open", "version 2, slot erased: 7, not skipped", record.clone().unsealed());
    add_one(set, "version-2-frame-check", "version 2, the frame check wrong: 7, not 9", record.clone().flip(13, 1));
    let long = record.put(8, &5_000_u16.to_le_bytes()).header_anew();
    add_one(set, "version-2-long", "version 2, announcing more than there is: 7, not 4", long);
}

/// The header check computed anew over damage, the frame check as it was.
fn agreeing(set: &mut Set) {
    let record = completed(8, b"agree", 4);
    let mut add = |name: &str, tries: &str, record: Laid| {
        add_one(set, format!("agree-{name}"), format!("header check anew over {tries}"), record.header_anew());
    };
    add("kind", "kind 4 for 3: 9", record.clone().put(3, &[4]));
    add("kind-open", "kind 4 for 3, slot erased: 9, not skipped", record.clone().unsealed().put(3, &[4]));
    add("sequence", "another sequence: 9", record.clone().flip(7, 0x80));
    add("longer", "P one more: 9", record.clone().put(8, &[6]));
    add("shorter", "P one less: 9", record.clone().put(8, &[4]));
    add("empty", "P = 0: 9", record.clone().put(8, &[0]));
    add("high-byte", "P with 1 in its high byte, more than there is: 4", record.clone().put(9, &[1]));
    add("all", "P = 65,535: 4", record.clone().put(8, &[0xFF, 0xFF]));
    add("unknown", "unknown kind 200: 9, not 6", record.clone().put(3, &[200]));
    add("no-payload", "kind 6, which has no payload: 9, not 8", record.clone().put(3, &[6]));
    add("run", "kind 7, which has sequence 0: 9, not 8", record.clone().put(3, &[7]));
    // The frame then ends with the region, and the slot would lie behind it.
    add("to-the-end", "P up to the region's end: 4, not 9", record.put(8, &[52]));
    let both = completed(8, b"agree", 4).flip(4, 1).anew();
    add_one(set, "agree-both", "both checks and the seal computed anew over another sequence: found", both);
    let both = completed(8, b"agree", 4).put(3, &[6]).anew();
    add_one(set, "agree-malformed", "all computed anew over kind 6, which has no payload: 8", both);
}

/// Checks as another rule would have them.
fn other_checks(set: &mut Set) {
    let record = completed(8, b"check", 4);
    let (end, ten) = (record.frame_len(), record.bytes()[..10].to_vec());
    let mut head = |name: &str, tries: &str, check: u16| {
        let record = record.clone().put(10, &check.to_le_bytes()).frame_anew().sealed_anew();
        add_one(set, format!("header-check-{name}"), format!("header check {tries}: 9"), record);
    };
    head("ccitt-false", "by CRC-16/CCITT-FALSE", ccitt_false(&ten));
    head("plain", "without the final complement", !header_check(&ten));
    head("reversed", "most significant byte first", header_check(&ten).swap_bytes());
    head("zero", "0", 0);
    head("ffff", "0xFFFF", 0xFFFF);
    let mut frame = |name: &str, tries: &str, check: u32| {
        let record = record.clone().put(end - 4, &check.to_le_bytes()).sealed_anew();
        add_one(set, format!("frame-check-{name}"), format!("frame check {tries}, sealed by it: 9"), record);
    };
    let covered = &record.bytes()[..end - 4];
    let less = [&covered[..10], &covered[12..]].concat();
    frame("plain", "without the final complement", !frame_check(covered));
    frame("payload", "over the payload alone", frame_check(&covered[12..]));
    frame("header", "over the header alone", frame_check(&covered[..12]));
    frame("less", "without the header check's two bytes", frame_check(&less));
    frame("zero", "0", 0);
}

fn ccitt_false(bytes: &[u8]) -> u16 {
    bytes.iter().fold(0xFFFF, |crc, byte| {
        let start = crc ^ (u16::from(*byte) << 8);
        (0..8).fold(start, |crc, _| if crc & 0x8000 == 0 { crc << 1 } else { (crc << 1) ^ 0x1021 })
    })
}

/// What a cut may leave of a body: some bits of its sequence not programmed, and checks that agree all the same.
fn torn(set: &mut Set) {
    let seq = few_ones();
    let header = |torn: &Laid, whole: &Laid| within(torn, whole, 10..12);
    let both = |torn: &Laid, whole: &Laid| within(torn, whole, 10..16);
    let record = fired(seq, 4).unsealed();
    let torn = tear(&record, |torn| torn.header_anew(), |torn| header(torn, &record));
    add_one(set, "torn-header", "a torn header whose check agrees by chance: 9 by the frame check", torn);
    let torn = tear(&record, |torn| torn.header_anew().frame_anew(), |torn| both(torn, &record));
    add_one(set, "torn-both", "a torn body both of whose checks agree by chance: skipped, not found", torn);
    let long = record.clone().put(8, &[0, 0x80]);
    let torn = tear(&long, |torn| torn.header_anew(), |torn| header(torn, &record));
    add_one(set, "torn-length", "P torn to 32,768, its header check agrees by chance: 4", torn);
    let record = scheduled(seq, 4).unsealed();
    let other = record.clone().put(3, &[3]);
    let torn = tear(&other, |torn| torn.header_anew(), |torn| header(torn, &record));
    add_one(set, "torn-kind", "kind 2 torn into kind 3, its header check agrees by chance: 9", torn);
}

/// A sequence of a timer fired whose checks have few 1 bits, so that a tear that agrees is soon found.
fn few_ones() -> u32 {
    let ones = |seq: &u32| fired(*seq, 4).bytes()[10..16].iter().map(|byte| byte.count_ones()).sum::<u32>();
    (0..).find(|seq| ones(seq) <= 14).expect("some sequence has such checks")
}

/// Whether the torn bytes have every 1 bit of the whole ones.
fn within(torn: &Laid, whole: &Laid, places: std::ops::Range<usize>) -> bool {
    places.into_iter().all(|place| torn.bytes()[place] & whole.bytes()[place] == whole.bytes()[place])
}

/// The first tear of the sequence, counted upwards, that a cut may leave with these checks.
fn tear(record: &Laid, checked: impl Fn(Laid) -> Laid, allowed: impl Fn(&Laid) -> bool) -> Laid {
    let whole = record.sequence();
    (1..)
        .filter(|more| whole | more != whole)
        .map(|more| checked(record.clone().put(4, &u32::to_le_bytes(whole | more))))
        .find(allowed)
        .expect("some tear agrees")
}
