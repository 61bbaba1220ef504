//! The three records that docs/FORMAT.md explains field by field.

use crate::laid::{laid, Laid};
use jardolento::RecordRef;

pub struct Example {
    pub name: &'static str,
    pub tries: &'static str,
    pub unit: usize,
    pub record: RecordRef<'static>,
}

pub const EXAMPLES: [Example; 3] = [
    Example {
        name: "format-1",
        tries: "the first record of docs/FORMAT.md: timer fired, sequence 7, a = 4",
        unit: 4,
        record: RecordRef::TimerFired { seq: 7 },
    },
    Example {
        name: "format-2",
        tries: "the second record of docs/FORMAT.md: run started, payload of 11 bytes, a = 2",
        unit: 2,
        record: RecordRef::RunStarted { workflow_kind: 3, workflow_version: 1, input: b"zone 12" },
    },
    Example {
        name: "format-3",
        tries: "the third record of docs/FORMAT.md: effect scheduled, sequence 258, a = 16",
        unit: 16,
        record: RecordRef::EffectScheduled { seq: 258, kind: 2, input_len: 7, input_crc: 0x1234_5678 },
    },
];

impl Example {
    pub fn laid(&self) -> Laid {
        laid(self.record, self.unit)
    }
}

/// Bytes in hexadecimal, sixteen to a line, as docs/FORMAT.md shows them.
pub fn hex(bytes: &[u8]) -> String {
    let line = |row: &[u8]| row.iter().map(|byte| format!("{byte:02x}")).collect::<Vec<_>>().join(" ");
    bytes.chunks(16).map(line).collect::<Vec<_>>().join("\n")
}

#[cfg(test)]
mod tests {
    use super::*;
    use jardolento::{frame_check, header_check};

    fn page() -> String {
        std::fs::read_to_string(concat!(env!("CARGO_MANIFEST_DIR"), "/../../docs/FORMAT.md"))
            .expect("the page is there")
    }

    #[test]
    fn the_page_shows_the_records_that_the_library_makes() {
        for example in &EXAMPLES {
            let shown = format!("```text\n{}\n```", hex(example.laid().bytes()));
            assert!(page().contains(&shown), "{}", example.tries);
        }
    }

    #[test]
    fn the_page_shows_the_checks_that_the_library_computes() {
        let timer = EXAMPLES[0].laid();
        for bytes in [&b""[..], b"123456789", &timer.bytes()[..10], &timer.bytes()[..12]] {
            let shown = format!("| 0x{:04X} | 0x{:08X} |", header_check(bytes), frame_check(bytes));
            assert!(page().contains(&shown), "{shown}");
        }
    }
}
