//! Inputs that are refused whole: first lines, units outside their limits, a region that is too long; and some first
//! lines that look wrong and are right.

use super::fired;
use crate::set::{region, Set};

/// First lines that are none: a name, what is tried, and the line.
const LINES: [(&str, &str, &str); 25] = [
    ("empty-line", "an empty first line", "\n"),
    ("one-number", "one number", "4\n"),
    ("three-numbers", "three numbers", "4,1,1\n"),
    ("two-commas", "two commas", "4,,1\n"),
    ("no-a", "no number before the comma", ",1\n"),
    ("no-r", "no number behind the comma", "4,\n"),
    ("comma", "a comma alone", ",\n"),
    ("semicolon", "a semicolon for the comma", "4;1\n"),
    ("zero-a", "a zero in front of a", "04,1\n"),
    ("zero-r", "a zero in front of r", "4,01\n"),
    ("blank-first", "a blank before a", " 4,1\n"),
    ("blank-comma", "a blank behind the comma", "4, 1\n"),
    ("blank-last", "a blank behind r", "4,1 \n"),
    ("tab", "a tab behind r", "4,1\t\n"),
    ("cr", "CR LF for LF", "4,1\r\n"),
    ("cr-alone", "CR for LF", "4,1\r"),
    ("plus", "a sign before a", "+4,1\n"),
    ("minus", "a minus before r", "4,-1\n"),
    ("hex", "a in hexadecimal", "0x4,1\n"),
    ("point", "a with a point", "4.0,1\n"),
    ("letter", "a letter behind a", "4a,1\n"),
    ("underscore", "digits parted by an underscore", "1_6,1\n"),
    ("second", "the units in the second line", "\n4,1\n"),
    ("slash", "the byte before `0` as a digit", "/,1\n"),
    ("colon", "the byte behind `9` as a digit", "4,:\n"),
];

pub fn add(set: &mut Set) {
    settings(set);
    lines(set);
    set.add("region-32769", "a region of 32,769 erased bytes: refused", region(4).erased(32_769));
    let record = fired(7, 4);
    set.add(
        "region-32769-record",
        "a record in a region of 32,769 bytes: refused",
        region(4).then(&record).up_to(32_769),
    );
}

/// A first line, then a record and erased bytes.
fn with_line(set: &mut Set, name: String, tries: String, line: &str) {
    let mut bytes = line.as_bytes().to_vec();
    bytes.extend_from_slice(fired(7, 4).bytes());
    bytes.extend_from_slice(&[0xFF; 20]);
    set.raw(name, tries, bytes);
}

fn settings(set: &mut Set) {
    // The last two are 4 more than 2 to the 32nd and than 2 to the 64th.
    let units = "0 3 5 6 7 9 12 15 17 31 33 63 65 127 129 255 257 512 4096 65540 4294967300 18446744073709551620";
    for unit in units.split(' ') {
        with_line(set, format!("settings-a-{unit}"), format!("a = {unit}: refused"), &format!("{unit},1\n"));
    }
    for unit in "0 3 6 4095 4097 8192 65537 4294967297 18446744073709551617".split(' ') {
        with_line(set, format!("settings-r-{unit}"), format!("r = {unit}: refused"), &format!("4,{unit}\n"));
    }
    with_line(set, "settings-both".into(), "a = 3 and r = 3: refused".into(), "3,3\n");
}

fn lines(set: &mut Set) {
    for (name, tries, line) in LINES {
        with_line(set, format!("line-{name}"), format!("{tries}: refused"), line);
    }
    let long = format!("{},1\n", "4".repeat(5_000));
    with_line(set, "line-long-number".into(), "a number of 5,000 digits: refused".into(), &long);
    let zeros = format!("{}4,1\n", "0".repeat(30));
    with_line(set, "line-many-zeros".into(), "thirty zeros in front of a: refused".into(), &zeros);
    set.raw("line-no-bytes", "no input at all: refused", "");
    set.raw("line-no-end", "a first line without LF, and no region: refused", "4,1");
    set.raw("line-alone", "a first line and no region: clean at 0", "4,1\n");
    with_line(set, "line-wide-digits".into(), "digits that are not ASCII: refused".into(), "\u{664},1\n");
    with_line(set, "line-nul".into(), "a NUL behind r: refused".into(), "4,1\0\n");
    with_line(set, "line-order".into(), "1,4: a is 1 and r is 4, and a record of another a".into(), "1,4\n");
    with_line(set, "line-most".into(), "256,4096: the greatest units, and a record of another a".into(), "256,4096\n");
    // The record's bytes hold a second line feed, which belongs to the region.
    let mut bytes = b"4,1\n".to_vec();
    bytes.extend_from_slice(fired(10, 4).bytes());
    set.raw("line-feed-in-region", "a record whose sequence is the byte of a line feed", bytes);
}
