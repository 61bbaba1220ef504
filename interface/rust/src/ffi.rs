//! The C interface as Rust declares it: the structs and calls of interface/c/jardolento.h, field by field and in its
//! order, and nothing else. The header says what each one means.
//!
//! A pointer must not be null, also where its length is 0; it must be good for that length, and a buffer that a call
//! writes may overlap no other argument. The rest of the package keeps to that by taking slices.

#[repr(C)]
#[derive(Clone, Copy, Debug, Default, PartialEq, Eq)]
pub struct Refused {
    pub number: u8,
    pub has_place: u8,
    pub needed: u32,
    pub available: u32,
    pub place: u32,
}

#[repr(C)]
#[derive(Clone, Copy, Debug, Default, PartialEq, Eq)]
pub struct Record {
    pub kind: u8,
    pub seq: u32,
    pub workflow_kind: u16,
    pub workflow_version: u16,
    pub activity: u16,
    pub input_len: u16,
    pub input_crc: u32,
    pub clock_kind: u8,
    pub deadline: u64,
    pub armed_at: u64,
    pub gate: u16,
    pub version: u16,
}

#[repr(C)]
#[derive(Clone, Copy, Debug, Default, PartialEq, Eq)]
pub struct Part {
    pub place: usize,
    pub len: usize,
}

#[repr(C)]
#[derive(Clone, Copy, Debug, Default, PartialEq, Eq)]
pub struct Geometry {
    pub bytes: u32,
    pub program_size: u32,
    pub read_size: u32,
}

#[repr(C)]
#[derive(Clone, Copy, Debug, Default, PartialEq, Eq)]
pub struct Settings {
    pub refused: Refused,
    pub geometry: Geometry,
}

#[repr(C)]
#[derive(Clone, Copy, Debug, Default, PartialEq, Eq)]
pub struct Length {
    pub refused: Refused,
    pub bytes: usize,
}

#[repr(C)]
#[derive(Clone, Copy, Debug, Default, PartialEq, Eq)]
pub struct Decoded {
    pub refused: Refused,
    pub known: u8,
    pub format_version: u8,
    pub record: Record,
    pub free: Part,
    pub payload: Part,
    pub frame_len: usize,
    pub frame_crc: u32,
}

#[repr(C)]
#[derive(Clone, Copy, Debug, Default, PartialEq, Eq)]
pub struct Found {
    pub offset: usize,
    pub len: usize,
    pub record: Record,
    pub free: Part,
    pub payload: Part,
}

#[repr(C)]
#[derive(Clone, Copy, Debug, Default, PartialEq, Eq)]
pub struct Recovery {
    pub geometry: Geometry,
    pub offset: u32,
    pub ending: u8,
    pub reads: u64,
}

#[repr(C)]
#[derive(Clone, Copy, Debug, Default, PartialEq, Eq)]
pub struct RecoveryStep {
    pub state: Recovery,
    pub refused: Refused,
    pub is_found: u8,
    pub found: Found,
}

#[repr(C)]
#[derive(Clone, Copy, Debug, Default, PartialEq, Eq)]
pub struct Scan {
    pub align: usize,
    pub offset: usize,
    pub stopped: u8,
}

#[repr(C)]
#[derive(Clone, Copy, Debug, Default, PartialEq, Eq)]
pub struct ScanStep {
    pub state: Scan,
    pub refused: Refused,
    pub is_found: u8,
    pub found: Found,
}

#[repr(C)]
#[derive(Clone, Copy, Debug, Default, PartialEq, Eq)]
pub struct Written {
    pub payload_bytes: u64,
    pub programmed_bytes: u64,
    pub program_operations: u64,
    pub barriers: u64,
    pub uncommitted_appends: u64,
}

#[repr(C)]
#[derive(Clone, Copy, Debug, Default, PartialEq, Eq)]
pub struct Journal {
    pub geometry: Geometry,
    pub offset: u32,
    pub phase: u8,
    pub body_len: u32,
    pub payload_len: u32,
    pub frame_crc: u32,
    pub written: Written,
}

#[repr(C)]
#[derive(Clone, Copy, Debug, Default, PartialEq, Eq)]
pub struct Opening {
    pub refused: Refused,
    pub journal: Journal,
}

#[repr(C)]
#[derive(Clone, Copy, Debug, Default, PartialEq, Eq)]
pub struct Advanced {
    pub journal: Journal,
    pub refused: Refused,
    pub written: Written,
}

#[repr(C)]
#[derive(Clone, Copy, Debug, Default, PartialEq, Eq)]
pub struct Finding {
    pub refused: Refused,
    pub is_found: u8,
    pub offset: u32,
}

extern "C" {
    pub fn jardolento_header_check(bytes: *const u8, len: usize) -> u16;
    pub fn jardolento_frame_check(bytes: *const u8, len: usize) -> u32;

    pub fn jardolento_payload_len(record: Record, free: *const u8, free_len: usize) -> Length;
    pub fn jardolento_encoded_len_for(payload_bytes: usize, align: usize) -> Length;
    pub fn jardolento_encoded_len(record: Record, free: *const u8, free_len: usize, align: usize) -> Length;
    pub fn jardolento_body_len(record: Record, free: *const u8, free_len: usize, align: usize) -> Length;
    pub fn jardolento_frame_len_of(header: *const u8, len: usize) -> Length;

    pub fn jardolento_encode(
        record: Record,
        free: *const u8,
        free_len: usize,
        align: usize,
        out: *mut u8,
        out_len: usize,
    ) -> Length;
    pub fn jardolento_seal(frame_crc: u32, slot: *mut u8, slot_len: usize);
    pub fn jardolento_decode(bytes: *const u8, len: usize) -> Decoded;

    pub fn jardolento_geometry_new(bytes: usize, program_size: usize, read_size: usize) -> Settings;
    pub fn jardolento_recovery_new(geometry: Geometry) -> Recovery;
    pub fn jardolento_recovery_next(
        state: Recovery,
        region: *const u8,
        region_len: usize,
        page: *mut u8,
        page_len: usize,
    ) -> RecoveryStep;

    pub fn jardolento_scan_new(align: usize) -> Scan;
    pub fn jardolento_scan_next(state: Scan, journal: *const u8, journal_len: usize) -> ScanStep;

    pub fn jardolento_costliest(program_size: usize, read_size: usize, region: *mut u8, region_len: usize) -> Refused;

    pub fn jardolento_find(
        seq: u32,
        program_size: usize,
        read_size: usize,
        region: *const u8,
        region_len: usize,
        page: *mut u8,
        page_len: usize,
    ) -> Finding;
    pub fn jardolento_open(
        program_size: usize,
        read_size: usize,
        region: *const u8,
        region_len: usize,
        page: *mut u8,
        page_len: usize,
    ) -> Opening;
    pub fn jardolento_open_with(
        written: Written,
        program_size: usize,
        read_size: usize,
        region: *const u8,
        region_len: usize,
        page: *mut u8,
        page_len: usize,
    ) -> Opening;

    pub fn jardolento_stage(
        journal: Journal,
        record: Record,
        free: *const u8,
        free_len: usize,
        region: *mut u8,
        region_len: usize,
        page: *mut u8,
        page_len: usize,
    ) -> Advanced;
    pub fn jardolento_payload_barrier(journal: Journal, region: *const u8, region_len: usize) -> Advanced;
    pub fn jardolento_commit(journal: Journal, region: *mut u8, region_len: usize) -> Advanced;

    pub fn jardolento_written_plus(x: Written, y: Written) -> Written;
    pub fn jardolento_overhead_bytes(written: Written) -> u64;
}
