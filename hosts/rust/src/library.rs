//! The library's C functions, as `include/liivokarp.h` declares them.

use crate::{Region, Segment};

#[repr(C)]
#[derive(Clone, Copy, Debug, PartialEq, Eq)]
pub struct Reply {
    pub number: u64,
    pub place: u64,
    pub score: i64,
    pub count: u64,
}

mod functions {
    use super::*;

    extern "C" {
        pub fn lk_assemble(
            sheet: *const u8,
            sheet_length: usize,
            chain: *mut u32,
            chain_length: usize,
        ) -> Reply;

        pub fn lk_score_chain(
            sheet: *const u8,
            sheet_length: usize,
            chain: *const u32,
            chain_length: usize,
        ) -> Reply;

        pub fn lk_region_score(
            region: Region,
            records: *const Segment,
            records_length: usize,
        ) -> Reply;
    }
}

pub fn assemble(sheet: &[u8], chain: &mut [u32]) -> Reply {
    // SAFETY: both pointers come with the lengths of what they point to, and only the chain, which
    // is lent alone, is written.
    unsafe { functions::lk_assemble(sheet.as_ptr(), sheet.len(), chain.as_mut_ptr(), chain.len()) }
}

pub fn score_chain(sheet: &[u8], chain: &[u32]) -> Reply {
    // SAFETY: both pointers come with the lengths of what they point to, and nothing is written.
    unsafe { functions::lk_score_chain(sheet.as_ptr(), sheet.len(), chain.as_ptr(), chain.len()) }
}

pub fn region_score(region: Region, records: &[Segment]) -> Reply {
    // SAFETY: the pointer comes with the length of what it points to, and nothing is written.
    unsafe { functions::lk_region_score(region, records.as_ptr(), records.len()) }
}
