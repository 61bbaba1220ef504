//! That the package mirrors interface/c/jardolento.h: src/ffi.rs has the same structs and calls in the same order, with
//! the same fields and types, and the layout that a C compiler gives them; refusals, kinds, endings, phases and lengths
//! have the header's names and numbers; the versions agree. The layout needs that compiler: `cc`, or what CC names.

use std::env;
use std::fmt::Debug;
use std::fs;
use std::mem::{align_of, offset_of, size_of};
use std::path::Path;
use std::process::Command;

use jardolento::{ffi, Journal, RecordRef, Recovery, Refusal, LONGEST_RECORD, PAGE_BYTES, VERSION};

const CHANGELOG: &str = include_str!("../../../CHANGELOG.md");
const FFI: &str = include_str!("../src/ffi.rs");
const HEADER: &str = include_str!("../../c/jardolento.h");

/// What the header declares, as Rust writes it.
struct Declared {
    /// Each struct's name in C, and its fields as name and type.
    structs: Vec<(String, Vec<(String, String)>)>,
    calls: Vec<String>,
    /// Each enum's names, without the JARDOLENTO_ before them, and numbers.
    enums: Vec<Vec<(String, u8)>>,
}

#[test]
fn declarations_are_the_headers() {
    let header = header();
    let mut expected = String::new();
    for (name, fields) in &header.structs {
        let fields: String = fields.iter().map(|(field, of)| format!("pub {field}: {of}, ")).collect();
        expected += &format!("#[repr(C)] pub struct {} {{ {fields}}} ", camel(name));
    }
    expected += &format!("extern \"C\" {{ {} }}", header.calls.join(" "));
    assert!(header.structs.len() > 10 && header.calls.len() > 10);
    assert_eq!(ffi_words(), expected);
}

/// The text of src/ffi.rs without comments and derived traits, each list on one line.
fn ffi_words() -> String {
    let lines = FFI.lines().filter(|line| !line.starts_with("//") && !line.starts_with("#[derive"));
    let words = one_space(&lines.collect::<Vec<_>>().join(" "));
    words.replace("( ", "(").replace(", )", ")")
}

fn header() -> Declared {
    let mut declared = Declared { structs: Vec::new(), calls: Vec::new(), enums: Vec::new() };
    for statement in statements() {
        if let Some((head, fields)) = statement.split_once(" { ") {
            let fields = fields.trim_end_matches('}');
            if let Some(name) = head.strip_prefix("struct jardolento_") {
                let fields = fields.split(';').map(str::trim).filter(|field| !field.is_empty());
                declared.structs.push((name.to_string(), fields.map(variable).collect()));
            } else {
                assert_eq!(head, "enum");
                declared.enums.push(fields.split(',').map(constant).collect());
            }
        } else {
            let (head, arguments) = statement.split_once('(').expect("a call has arguments");
            let (name, answer) = variable(head);
            let arguments: Vec<_> = arguments.trim_end_matches(')').split(',').map(variable).collect();
            let arguments: Vec<_> = arguments.iter().map(|(name, of)| format!("{name}: {of}")).collect();
            let answer = if answer == "()" { String::new() } else { format!(" -> {answer}") };
            declared.calls.push(format!("pub fn {name}({}){answer};", arguments.join(", ")));
        }
    }
    declared
}

/// The header's declarations, without comments, preprocessor lines and what only C++ reads.
fn statements() -> Vec<String> {
    let mut text = String::new();
    for (n, piece) in HEADER.split("/*").enumerate() {
        text += if n == 0 { piece } else { piece.split_once("*/").expect("a comment ends").1 };
    }
    // A preprocessor line goes on behind a backslash.
    let text = text.replace("\\\n", " ");
    let lines = text.lines().filter(|line| !line.starts_with('#') && !line.starts_with("extern") && *line != "}");
    let (mut depth, mut found, mut statement) = (0, Vec::new(), String::new());
    for letter in lines.collect::<Vec<_>>().join(" ").chars() {
        match letter {
            '{' => depth += 1,
            '}' => depth -= 1,
            _ => {}
        }
        if letter == ';' && depth == 0 {
            found.push(one_space(&statement));
            statement.clear();
        } else {
            statement.push(letter);
        }
    }
    assert_eq!(statement.trim(), "", "the header ends with a whole declaration");
    found
}

/// C's `const uint8_t *bytes` as name and Rust's type.
fn variable(text: &str) -> (String, String) {
    let text = text.trim();
    let start = text.rfind([' ', '*']).expect("a type stands before the name") + 1;
    let of = match text[..start].trim() {
        "void" => "()".to_string(),
        "uint8_t" => "u8".to_string(),
        "uint16_t" => "u16".to_string(),
        "uint32_t" => "u32".to_string(),
        "uint64_t" => "u64".to_string(),
        "size_t" => "usize".to_string(),
        "uint8_t *" => "*mut u8".to_string(),
        "const uint8_t *" => "*const u8".to_string(),
        other => camel(other.strip_prefix("struct jardolento_").unwrap_or_else(|| panic!("a type: {other}"))),
    };
    (text[start..].to_string(), of)
}

/// C's `JARDOLENTO_CLEAN = 1` as CLEAN and 1.
fn constant(text: &str) -> (String, u8) {
    let (name, number) = text.split_once('=').expect("each name has its number");
    let name = name.trim().strip_prefix("JARDOLENTO_").expect("each name begins alike");
    (name.to_string(), number.trim().parse().expect("a number"))
}

/// What the header defines as a preprocessor's number.
fn defined(name: &str) -> usize {
    let line = format!("#define JARDOLENTO_{name} ");
    let mut values = HEADER.lines().filter_map(|text| text.strip_prefix(&line));
    let value = values.next().unwrap_or_else(|| panic!("the header defines {name}"));
    value.parse().expect("a number")
}

/// The name of an enum's value, `PageTooSmall { needed: 0 }` say, as C writes it: PAGE_TOO_SMALL.
fn upper(value: impl Debug) -> String {
    let text = format!("{value:?}");
    let mut name = String::new();
    for letter in text.chars().take_while(char::is_ascii_alphabetic) {
        if letter.is_ascii_uppercase() && !name.is_empty() {
            name.push('_');
        }
        name.push(letter.to_ascii_uppercase());
    }
    name
}

#[test]
fn numbers_are_the_headers() {
    let refusals = (1..=15).chain([18, 24]).map(|number| {
        let refused = ffi::Refused { number, has_place: u8::from(number == 18), ..Default::default() };
        (upper(Refusal::of(refused).unwrap()), number)
    });
    let kinds = (1..=9).map(|kind| {
        let record = ffi::Record { kind, ..Default::default() };
        (upper(RecordRef::of(record, &[]).unwrap()), kind)
    });
    // In C an unsealed ending has another name than the refusal, and one for a recovery that has not ended.
    let endings = (0..=4).map(|ending| {
        let name = match Recovery(ffi::Recovery { ending, ..Default::default() }).ending().map(upper) {
            None => "OPEN".to_string(),
            Some(name) if name == "UNSEALED" => "NO_SEAL".to_string(),
            Some(name) => name,
        };
        (name, ending)
    });
    let phases = (0..=2).map(|phase| (upper(Journal(ffi::Journal { phase, ..Default::default() }).phase()), phase));
    let expected: Vec<Vec<_>> = vec![refusals.collect(), kinds.collect(), endings.collect(), phases.collect()];
    assert_eq!(header().enums, expected);
    assert_eq!((LONGEST_RECORD, PAGE_BYTES), (defined("LONGEST_RECORD"), defined("PAGE_BYTES")));
}

#[test]
fn versions_are_the_headers() {
    let [major, minor, patch] = ["MAJOR", "MINOR", "PATCH"].map(|part| defined(&format!("VERSION_{part}")));
    assert_eq!(VERSION, format!("{major}.{minor}.{patch}"));
    let latest = CHANGELOG.lines().find_map(|line| line.strip_prefix("## ")).expect("a version has a heading");
    assert_eq!(latest.split_whitespace().next(), Some(VERSION), "the latest version of CHANGELOG.md");
}

fn camel(name: &str) -> String {
    name.split('_').map(|word| word[..1].to_uppercase() + &word[1..]).collect()
}

fn one_space(text: &str) -> String {
    text.split_whitespace().collect::<Vec<_>>().join(" ")
}

/// A line for the struct's size and alignment, and one for each field's offset.
macro_rules! layout {
    ($($of:ident as $name:literal: $($field:ident)+;)+) => {{
        let mut lines = String::new();
        $(
            lines += &format!("{} {} {}\n", $name, size_of::<ffi::$of>(), align_of::<ffi::$of>());
            $(lines += &format!("{}.{} {}\n", $name, stringify!($field), offset_of!(ffi::$of, $field));)+
        )+
        lines
    }};
}

#[test]
fn layouts_are_those_of_c() {
    let compiler = env::var("CC").unwrap_or_else(|_| "cc".to_string());
    if Command::new(&compiler).arg("--version").output().is_err() {
        eprintln!("not run: there is no {compiler}");
        return;
    }
    let rust = layout! {
        Refused as "refused": number has_place needed available place;
        Record as "record": kind seq workflow_kind workflow_version activity input_len input_crc clock_kind deadline
            armed_at gate version;
        Part as "part": place len;
        Geometry as "geometry": bytes program_size read_size;
        Settings as "settings": refused geometry;
        Length as "length": refused bytes;
        Decoded as "decoded": refused known format_version record free payload frame_len frame_crc;
        Found as "found": offset len record free payload;
        Recovery as "recovery": geometry offset ending reads;
        RecoveryStep as "recovery_step": state refused is_found found;
        Scan as "scan": align offset stopped;
        ScanStep as "scan_step": state refused is_found found;
        Written as "written": payload_bytes programmed_bytes program_operations barriers uncommitted_appends;
        Journal as "journal": geometry offset phase body_len payload_len frame_crc written;
        Opening as "opening": refused journal;
        Advanced as "advanced": journal refused written;
        Finding as "finding": refused is_found offset;
    };
    assert_eq!(c_layout(&compiler), rust);
}

/// The same lines, from a program that is made of the header's own fields.
fn c_layout(compiler: &str) -> String {
    let mut program = "#include \"jardolento.h\"\n#include <stdio.h>\nint main(void) {\n".to_string();
    for (name, fields) in header().structs {
        let of = format!("struct jardolento_{name}");
        program += &format!("printf(\"{name} %zu %zu\\n\", sizeof({of}), _Alignof({of}));\n");
        for (field, _) in fields {
            program += &format!("printf(\"{name}.{field} %zu\\n\", offsetof({of}, {field}));\n");
        }
    }
    program += "return 0; }\n";

    let folder = Path::new(env!("CARGO_TARGET_TMPDIR"));
    let (source, binary) = (folder.join("layout.c"), folder.join("layout"));
    fs::write(&source, program).expect("the program can be written");
    let header = Path::new(env!("CARGO_MANIFEST_DIR")).join("../c");
    let made =
        Command::new(compiler).arg("-std=c11").arg("-I").arg(header).arg(&source).arg("-o").arg(&binary).status();
    assert!(made.expect("the compiler starts").success(), "the header compiles");
    let run = Command::new(&binary).output().expect("the program starts");
    String::from_utf8(run.stdout).expect("the program prints text")
}
