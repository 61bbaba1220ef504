//! What both sides are asked and what they answer, in plain numbers and bytes. Two answers are equal or they are not;
//! nothing here knows either side.

/// A record as given and as found. Numbers that its kind lacks are 0 in an answer, and anything in a question.
#[derive(Clone, Copy, Debug, Default, PartialEq, Eq)]
pub struct Record {
    pub kind: u8,
    pub seq: u32,
    pub workflow_kind: u16,
    pub workflow_version: u16,
    pub activity: u16,
    pub input_len: u16,
    pub input_crc: u32,
    pub clock_kind: u8,
    pub deadline: u64,
    pub armed_at: u64,
    pub gate: u16,
    pub version: u16,
}

impl Record {
    /// The same record with the numbers that its kind lacks at 0.
    pub fn trimmed(self) -> Self {
        let bare = Record { kind: self.kind, seq: self.seq, ..Record::default() };
        match self.kind {
            1 => Record { workflow_kind: self.workflow_kind, workflow_version: self.workflow_version, ..bare },
            2 => Record { activity: self.activity, input_len: self.input_len, input_crc: self.input_crc, ..bare },
            5 => Record { clock_kind: self.clock_kind, deadline: self.deadline, armed_at: self.armed_at, ..bare },
            9 => Record { gate: self.gate, version: self.version, ..bare },
            _ => bare,
        }
    }
}

/// Why a call declined. `needed` and `available` are 0 where the number has none. `place` is the offset of the first
/// byte that is not 0xFF where all were to be, for refusals that say so.
#[derive(Clone, Copy, Debug, Default, PartialEq, Eq)]
pub struct Refused {
    pub number: u8,
    pub needed: u32,
    pub available: u32,
    pub place: Option<u32>,
}

impl Refused {
    pub const fn plain(number: u8) -> Self {
        Self { number, needed: 0, available: 0, place: None }
    }
}

pub type Length = Result<usize, Refused>;

/// A part of the bytes that a record was read from, counted from the record's own first byte.
#[derive(Clone, Copy, Debug, Default, PartialEq, Eq)]
pub struct Part {
    pub place: usize,
    pub len: usize,
}

#[derive(Clone, Copy, Debug, PartialEq, Eq)]
pub struct Found {
    pub offset: usize,
    pub len: usize,
    pub record: Record,
    pub free: Part,
    pub payload: Part,
}

#[derive(Clone, Copy, Debug, PartialEq, Eq)]
pub struct Decoded {
    pub known: bool,
    pub record: Record,
    pub free: Part,
    pub payload: Part,
    pub frame_len: usize,
    pub frame_crc: u32,
    pub format_version: u8,
}

#[derive(Clone, Copy, Debug, PartialEq, Eq)]
pub enum Outcome {
    Found(Found),
    Ended,
    Refused(Refused),
}

impl Outcome {
    pub fn refused(&self) -> Option<&Refused> {
        match self {
            Outcome::Refused(refused) => Some(refused),
            _ => None,
        }
    }
}

/// How a recovery ended, by the numbers of the C header.
pub const OPEN: u8 = 0;
pub const CLEAN: u8 = 1;
pub const DAMAGED: u8 = 2;
pub const INCOMPLETE: u8 = 3;
pub const UNSEALED: u8 = 4;

#[derive(Clone, Debug, PartialEq, Eq)]
pub struct RecoveryStep {
    pub outcome: Outcome,
    pub offset: u32,
    pub ending: u8,
    /// Reads of the region since the recovery's start.
    pub reads: u64,
    pub page: Vec<u8>,
}

#[derive(Clone, Debug, PartialEq, Eq)]
pub struct ScanStep {
    pub outcome: Outcome,
    pub offset: usize,
}

/// What was written. The Rust has the first four counts, in 32 bits each.
#[derive(Clone, Copy, Debug, Default, PartialEq, Eq)]
pub struct Written {
    pub payload_bytes: u64,
    pub programmed_bytes: u64,
    pub program_operations: u64,
    pub barriers: u64,
    pub uncommitted_appends: u64,
}

/// How many counts there are.
pub const PLACES: usize = 5;

impl Written {
    /// The counts in the order of the C header.
    pub const fn counts(self) -> [u64; PLACES] {
        let Written { payload_bytes, programmed_bytes, program_operations, barriers, uncommitted_appends } = self;
        [payload_bytes, programmed_bytes, program_operations, barriers, uncommitted_appends]
    }

    pub const fn of(counts: [u64; PLACES]) -> Self {
        let [payload_bytes, programmed_bytes, program_operations, barriers, uncommitted_appends] = counts;
        Written { payload_bytes, programmed_bytes, program_operations, barriers, uncommitted_appends }
    }
}

#[derive(Clone, Copy, Debug, PartialEq, Eq)]
pub struct Journal {
    pub offset: u32,
    pub written: Written,
    pub overhead: u64,
}

#[derive(Clone, Debug)]
pub enum Call {
    Open,
    /// An opening that goes on from these counts.
    OpenWith(Written),
    Stage(Record, Vec<u8>),
    /// A stage on a region that is one read unit longer than the journal's own.
    StageElsewhere(Record, Vec<u8>),
    Barrier,
    Commit,
    /// Something else programs the region by AND, as flash does, from a place on; what lies past the end is left out.
    /// It stands where a journal is ready, and leaves it and the page as they are.
    Foreign {
        at: usize,
        bytes: Vec<u8>,
    },
}

/// What `Call::Foreign` does.
pub fn program(region: &mut [u8], at: usize, bytes: &[u8]) {
    for (old, new) in region.iter_mut().skip(at).zip(bytes) {
        *old &= *new;
    }
}

/// What one call of a list answered, and all that it could have changed.
#[derive(Clone, Debug, PartialEq, Eq)]
pub struct AfterCall {
    pub refused: Option<Refused>,
    pub committed: Option<Written>,
    pub journal: Option<Journal>,
    pub region: Vec<u8>,
    pub page: Vec<u8>,
}

/// The program unit a and the read unit r.
#[derive(Clone, Copy, Debug)]
pub struct Units {
    pub program: u16,
    pub read: u16,
}

/// What a page or an output holds before a call.
pub const BEFORE: u8 = 0xA5;

/// Steps made after the one that ended, to see that it stays ended.
pub const STEPS_PAST_THE_END: usize = 2;

/// What is asked. In a recovery, `held` is the region's length by the state: a step on a region of another length is
/// refused. `Counts` adds the counts of one append to a sum (`false`) or the sum to itself (`true`), `Sum` any two.
#[derive(Clone, Debug)]
pub enum Case {
    Checks { bytes: Vec<u8> },
    LengthFor { payload_bytes: usize, align: u16 },
    Encode { align: u16, record: Record, free: Vec<u8>, out_len: usize },
    Decode { bytes: Vec<u8> },
    Recovery { units: Units, held: usize, page_len: usize, region: Vec<u8> },
    Scan { align: u16, journal: Vec<u8> },
    Append { units: Units, page_len: usize, region: Vec<u8>, calls: Vec<Call> },
    Find { units: Units, page_len: usize, region: Vec<u8>, seq: u32 },
    Counts { align: u16, free_len: usize, doublings: Vec<bool> },
    Sum { x: Written, y: Written },
}

/// What is answered; `NotAccepted` where the side's constructors do not take the units.
#[derive(Clone, Debug, PartialEq, Eq)]
pub enum Answer {
    Checks { header: u16, frame: u32 },
    Length(Length),
    Encode { payload_len: Length, encoded_len: Length, body_len: Length, encode: Length, out: Vec<u8> },
    Decode { frame_len_of: Length, decoded: Result<Decoded, Refused> },
    Recovery(Vec<RecoveryStep>),
    Scan(Vec<ScanStep>),
    Append(Vec<AfterCall>),
    Find { offset: Result<Option<u32>, Refused>, page: Vec<u8> },
    Counts(Vec<(Written, u64)>),
    NotAccepted,
}

pub const KINDS: [&str; 11] = [
    "checks",
    "length for P",
    "encode, lengths",
    "decode, frame length",
    "recovery",
    "scan",
    "append lists",
    "find",
    "counts",
    "lists, counts handed",
    "sums of any counts",
];

impl Case {
    /// The place of the case's kind in `KINDS`.
    pub fn kind(&self) -> usize {
        match self {
            Case::Checks { .. } => 0,
            Case::LengthFor { .. } => 1,
            Case::Encode { .. } => 2,
            Case::Decode { .. } => 3,
            Case::Recovery { .. } => 4,
            Case::Scan { .. } => 5,
            Case::Append { calls, .. } if calls.iter().any(|call| matches!(call, Call::OpenWith(_))) => 9,
            Case::Append { .. } => 6,
            Case::Find { .. } => 7,
            Case::Counts { .. } => 8,
            Case::Sum { .. } => 10,
        }
    }
}

/// One of the two that are compared, or a copy with a deliberate mistake.
pub trait Side: Sync {
    fn answer(&self, case: &Case) -> Answer;
}
