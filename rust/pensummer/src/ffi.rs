//! The archive's functions as `include/pensummer.h` declares them. The safe functions of this crate are thin over
//! these; what each does, and what it asks of its pointers, stands in the header.
#![allow(missing_docs)]

/// The answer of a match or a finish: the refusal's number, 0 if it was carried out, and then the mapping's weight.
#[repr(C)]
#[derive(Clone, Copy, Debug, PartialEq, Eq)]
pub struct MatchResult {
    pub refusal: u32,
    pub weight: i32,
}

/// A job's record. It belongs to the caller and may hold any numbers: 0 in `idle` says that a job is running, any other
/// number that none is.
#[repr(C)]
#[derive(Clone, Copy, Debug, PartialEq, Eq)]
pub struct Job {
    pub idle: u32,
    pub n: u32,
    pub m: u32,
    pub position: u32,
    pub total: u32,
}

/// The answer of an advance: the refusal's number, 0 if none, and then how many subproblems were solved.
#[repr(C)]
#[derive(Clone, Copy, Debug, PartialEq, Eq)]
pub struct AdvanceResult {
    pub refusal: u32,
    pub count: u32,
}

/// The answer of writing a certificate: the refusal's number, 0 if none, and then its length.
#[repr(C)]
#[derive(Clone, Copy, Debug, PartialEq, Eq)]
pub struct WriteResult {
    pub refusal: u32,
    pub length: u32,
}

/// The answer to how much to lend: the refusal's number, 0 if none, and then how many subproblems there are, how many
/// work numbers are wanted, and a certificate's length.
#[repr(C)]
#[derive(Clone, Copy, Debug, PartialEq, Eq)]
pub struct SizesResult {
    pub refusal: u32,
    pub subproblems: u32,
    pub work: u32,
    pub certificate: u32,
}

extern "C" {
    pub fn pensummer_sizes(
        table: *const u8,
        table_len: usize,
        recorded: *const u8,
        recorded_len: usize,
        found: *const u8,
        found_len: usize,
    ) -> SizesResult;

    pub fn pensummer_match(
        table: *const u8,
        table_len: usize,
        recorded: *const u8,
        recorded_len: usize,
        found: *const u8,
        found_len: usize,
        work: *mut i32,
        work_len: usize,
        mapping: *mut u8,
        mapping_len: usize,
    ) -> MatchResult;

    pub fn pensummer_fresh() -> Job;

    pub fn pensummer_start(
        job: *mut Job,
        table: *const u8,
        table_len: usize,
        recorded: *const u8,
        recorded_len: usize,
        found: *const u8,
        found_len: usize,
        work: *const i32,
        work_len: usize,
    ) -> u32;

    pub fn pensummer_advance(
        job: *mut Job,
        table: *const u8,
        table_len: usize,
        recorded: *const u8,
        recorded_len: usize,
        found: *const u8,
        found_len: usize,
        budget: u32,
        work: *mut i32,
        work_len: usize,
    ) -> AdvanceResult;

    pub fn pensummer_finish(
        job: *const Job,
        table: *const u8,
        table_len: usize,
        recorded: *const u8,
        recorded_len: usize,
        found: *const u8,
        found_len: usize,
        work: *const i32,
        work_len: usize,
        mapping: *mut u8,
        mapping_len: usize,
    ) -> MatchResult;

    pub fn pensummer_write(
        table: *const u8,
        table_len: usize,
        recorded: *const u8,
        recorded_len: usize,
        found: *const u8,
        found_len: usize,
        work: *mut i32,
        work_len: usize,
        certificate: *mut u8,
        certificate_len: usize,
    ) -> WriteResult;

    pub fn pensummer_check(
        table: *const u8,
        table_len: usize,
        recorded: *const u8,
        recorded_len: usize,
        found: *const u8,
        found_len: usize,
        certificate: *const u8,
        certificate_len: usize,
    ) -> u32;
}
