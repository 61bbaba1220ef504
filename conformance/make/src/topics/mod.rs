//! The topics, each in a file of its own; an image's name begins with its topic's or a part's.

mod appends;
mod heads;
mod inputs;
mod kinds;
mod seals;
mod sizes;
mod skips;
mod tails;

use crate::laid::{laid, Laid};
use crate::set::{region, Region, Set};
use jardolento::RecordRef;

pub const UNITS: [usize; 9] = [1, 2, 4, 8, 16, 32, 64, 128, 256];

/// All images, in the order of the index.
pub fn all() -> Set {
    let mut set = Set::default();
    kinds::add(&mut set);
    sizes::add(&mut set);
    seals::add(&mut set);
    skips::add(&mut set);
    tails::add(&mut set);
    heads::add(&mut set);
    appends::add(&mut set);
    inputs::add(&mut set);
    set
}

/// Timer fired.
fn fired(seq: u32, unit: usize) -> Laid {
    laid(RecordRef::TimerFired { seq }, unit)
}

/// Effect completed.
fn completed(seq: u32, result: &[u8], unit: usize) -> Laid {
    laid(RecordRef::EffectCompleted { seq, result }, unit)
}

/// Effect scheduled.
fn scheduled(seq: u32, unit: usize) -> Laid {
    laid(RecordRef::EffectScheduled { seq, kind: 2, input_len: 7, input_crc: 0xA5A5_A5A5 }, unit)
}

/// One good record of each known kind.
fn one_of_each() -> [RecordRef<'static>; 9] {
    [
        RecordRef::RunStarted { workflow_kind: 3, workflow_version: 1, input: b"zone 12" },
        RecordRef::EffectScheduled { seq: 1, kind: 2, input_len: 7, input_crc: 0xA5A5_A5A5 },
        RecordRef::EffectCompleted { seq: 1, result: b"ok" },
        RecordRef::EffectFailed { seq: 2, error: b"no light" },
        RecordRef::TimerScheduled { seq: 3, clock_kind: 1, deadline: 600, armed_at: 540 },
        RecordRef::TimerFired { seq: 3 },
        RecordRef::RunCompleted { result: b"done" },
        RecordRef::RunFailed { error: b"lost" },
        RecordRef::VersionMarker { seq: 4, gate: 7, version: 1 },
    ]
}

/// A number of bytes, in words.
fn bytes(count: usize) -> String {
    if count == 1 {
        "1 byte".into()
    } else {
        format!("{count} bytes")
    }
}

/// A region that begins with a good record, so that what is tried stands at an offset other than 0.
fn behind_one(unit: usize) -> Region {
    region(unit).then(&fired(7, unit))
}
