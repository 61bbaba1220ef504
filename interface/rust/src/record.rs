//! Records: what is written, what is found, and how both pass to C and back.

use crate::ffi;

/// A record with its free bytes; it borrows them, both when it is written and when it is found.
#[derive(Clone, Copy, Debug, PartialEq, Eq)]
pub enum RecordRef<'a> {
    RunStarted { workflow_kind: u16, workflow_version: u16, input: &'a [u8] },
    EffectScheduled { seq: u32, kind: u16, input_len: u16, input_crc: u32 },
    EffectCompleted { seq: u32, result: &'a [u8] },
    EffectFailed { seq: u32, error: &'a [u8] },
    TimerScheduled { seq: u32, clock_kind: u8, deadline: u64, armed_at: u64 },
    TimerFired { seq: u32 },
    RunCompleted { result: &'a [u8] },
    RunFailed { error: &'a [u8] },
    VersionMarker { seq: u32, gate: u16, version: u16 },
}

impl<'a> RecordRef<'a> {
    /// The kind's number on flash, 1 to 9.
    pub const fn kind(&self) -> u8 {
        match self {
            Self::RunStarted { .. } => 1,
            Self::EffectScheduled { .. } => 2,
            Self::EffectCompleted { .. } => 3,
            Self::EffectFailed { .. } => 4,
            Self::TimerScheduled { .. } => 5,
            Self::TimerFired { .. } => 6,
            Self::RunCompleted { .. } => 7,
            Self::RunFailed { .. } => 8,
            Self::VersionMarker { .. } => 9,
        }
    }

    /// The sequence; 0 for the kinds that have none.
    pub const fn seq(&self) -> u32 {
        match *self {
            Self::EffectScheduled { seq, .. }
            | Self::EffectCompleted { seq, .. }
            | Self::EffectFailed { seq, .. }
            | Self::TimerScheduled { seq, .. }
            | Self::TimerFired { seq }
            | Self::VersionMarker { seq, .. } => seq,
            Self::RunStarted { .. } | Self::RunCompleted { .. } | Self::RunFailed { .. } => 0,
        }
    }

    /// The free bytes; empty for the kinds that have none.
    pub const fn free(&self) -> &'a [u8] {
        match *self {
            Self::RunStarted { input, .. } => input,
            Self::EffectCompleted { result, .. } | Self::RunCompleted { result } => result,
            Self::EffectFailed { error, .. } | Self::RunFailed { error } => error,
            Self::EffectScheduled { .. }
            | Self::TimerScheduled { .. }
            | Self::TimerFired { .. }
            | Self::VersionMarker { .. } => &[],
        }
    }

    /// The record that C's numbers and the free bytes say, or `None` where the kind is not 1 to 9.
    pub fn of(record: ffi::Record, free: &'a [u8]) -> Option<Self> {
        let seq = record.seq;
        Some(match record.kind {
            1 => Self::RunStarted {
                workflow_kind: record.workflow_kind,
                workflow_version: record.workflow_version,
                input: free,
            },
            2 => Self::EffectScheduled {
                seq,
                kind: record.activity,
                input_len: record.input_len,
                input_crc: record.input_crc,
            },
            3 => Self::EffectCompleted { seq, result: free },
            4 => Self::EffectFailed { seq, error: free },
            5 => Self::TimerScheduled {
                seq,
                clock_kind: record.clock_kind,
                deadline: record.deadline,
                armed_at: record.armed_at,
            },
            6 => Self::TimerFired { seq },
            7 => Self::RunCompleted { result: free },
            8 => Self::RunFailed { error: free },
            9 => Self::VersionMarker { seq, gate: record.gate, version: record.version },
            _ => return None,
        })
    }
}

/// A record as C takes it: any numbers, and any free bytes beside them. Calls that write a record take this or a
/// [`RecordRef`]; only this one can hold what is no record, and is then refused.
#[derive(Clone, Copy, Debug, PartialEq, Eq)]
pub struct Given<'a> {
    pub record: ffi::Record,
    pub free: &'a [u8],
}

impl<'a> From<RecordRef<'a>> for Given<'a> {
    fn from(given: RecordRef<'a>) -> Self {
        let mut record = ffi::Record { kind: given.kind(), seq: given.seq(), ..ffi::Record::default() };
        match given {
            RecordRef::RunStarted { workflow_kind, workflow_version, .. } => {
                record.workflow_kind = workflow_kind;
                record.workflow_version = workflow_version;
            }
            RecordRef::EffectScheduled { kind, input_len, input_crc, .. } => {
                record.activity = kind;
                record.input_len = input_len;
                record.input_crc = input_crc;
            }
            RecordRef::TimerScheduled { clock_kind, deadline, armed_at, .. } => {
                record.clock_kind = clock_kind;
                record.deadline = deadline;
                record.armed_at = armed_at;
            }
            RecordRef::VersionMarker { gate, version, .. } => {
                record.gate = gate;
                record.version = version;
            }
            // Nothing but kind, sequence and free bytes.
            RecordRef::EffectCompleted { .. }
            | RecordRef::EffectFailed { .. }
            | RecordRef::TimerFired { .. }
            | RecordRef::RunCompleted { .. }
            | RecordRef::RunFailed { .. } => {}
        }
        Self { record, free: given.free() }
    }
}

impl<'a> From<&RecordRef<'a>> for Given<'a> {
    fn from(given: &RecordRef<'a>) -> Self {
        Self::from(*given)
    }
}

/// A sealed record that recovery or a scan found.
#[derive(Clone, Copy, Debug, PartialEq, Eq)]
pub struct Found<'a> {
    /// Where it stands in the region.
    pub offset: usize,
    /// Its length with padding and slot.
    pub len: usize,
    pub record: RecordRef<'a>,
    /// The whole payload, the kind's numbers included.
    pub payload: &'a [u8],
}

impl<'a> Found<'a> {
    /// What C's answer says, over the bytes that begin with the record.
    ///
    /// # Panics
    ///
    /// On a kind that is not 1 to 9, which the library never finds.
    pub(crate) fn of(found: ffi::Found, bytes: &'a [u8]) -> Self {
        let free = part(bytes, found.free);
        let record = RecordRef::of(found.record, free).expect("the library finds records of kinds 1 to 9 only");
        Self { offset: found.offset, len: found.len, record, payload: part(bytes, found.payload) }
    }
}

/// A part of the bytes; empty where it does not lie in them.
pub(crate) fn part(bytes: &[u8], part: ffi::Part) -> &[u8] {
    let end = part.place.saturating_add(part.len);
    bytes.get(part.place..end).unwrap_or(&[])
}
