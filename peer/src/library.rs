//! The library under judgement, by its C functions.

use crate::reply::Reply;

#[cfg(feature = "records")]
use crate::{records::Region, sheet::Segment};

mod functions {
    use super::*;

    extern "C" {
        pub fn lk_assemble(
            sheet: *const u8,
            sheet_length: usize,
            chain: *mut u32,
            chain_length: usize,
        ) -> Reply;

        pub fn lk_score_chain(
            sheet: *const u8,
            sheet_length: usize,
            chain: *const u32,
            chain_length: usize,
        ) -> Reply;

        #[cfg(feature = "records")]
        pub fn lk_region_score(
            region: Region,
            records: *const Segment,
            records_length: usize,
        ) -> Reply;
    }
}

pub fn assemble(text: &[u8], buffer: &mut [u32]) -> Reply {
    // SAFETY: both pointers come with the lengths of what they point to, and only the buffer is
    // written.
    unsafe { functions::lk_assemble(text.as_ptr(), text.len(), buffer.as_mut_ptr(), buffer.len()) }
}

pub fn score_chain(text: &[u8], chain: &[u32]) -> Reply {
    // SAFETY: both pointers come with the lengths of what they point to, and nothing is written.
    unsafe { functions::lk_score_chain(text.as_ptr(), text.len(), chain.as_ptr(), chain.len()) }
}

#[cfg(feature = "records")]
pub fn region_score(region: Region, records: &[Segment]) -> Reply {
    // SAFETY: the pointer comes with the length of what it points to, and nothing is written.
    unsafe { functions::lk_region_score(region, records.as_ptr(), records.len()) }
}
