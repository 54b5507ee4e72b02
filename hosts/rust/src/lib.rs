//! Assembles gene structures.
//!
//! A sheet is a text with a model of a gene, scored sites (candidates) and scored segments.
//! [`assemble`] finds the best structure that the model allows, [`score_chain`] scores a structure
//! that is sent in, and [`region_score`] scores one region over segments that are lent as records.
//! All scores are thousandths.
//!
//! ```
//! use liivokarp::{assemble, score_chain, Refusal, MOST_CANDIDATES};
//!
//! // Type 2 is start, 3 is stop. Candidates 1 to 4 are the F lines; 0 is BEGIN and 5 is END.
//! let sheet = b"L 100
//! R 0 2 0 100 3 0 0 0 0
//! R 2 3 5 100 2 1 3 2 0
//! R 3 1 0 100 3 0 0 0 0
//! F 2 10 1500
//! F 2 13 200
//! F 3 24 500
//! F 3 39 3000
//! T 6 6 72 72 118
//! ";
//! let mut chain = [0; MOST_CANDIDATES];
//! let structure = assemble(sheet, &mut chain)?;
//! assert_eq!(structure.chain, [0, 1, 3, 5]);
//! assert_eq!(structure.score, 2000);
//!
//! // The stop at 24 stands in the frame of the start at 10.
//! let refusal = score_chain(sheet, &[0, 1, 4, 5]).unwrap_err();
//! assert_eq!(refusal, Refusal::BreaksModel { step: 2 });
//! # Ok::<(), Refusal>(())
//! ```
//!
//! Every input gets an answer: nothing has to be checked before a call, and nothing is kept after
//! it. There is no global state, so calls may run on several threads at once. A call takes less
//! than 2 MB of stack. A thread that Rust starts has 2 MiB of stack unless it is told otherwise, so
//! give a thread that calls these functions more, by `std::thread::Builder::stack_size`.

mod library;
mod refusal;

pub use refusal::Refusal;

/// A chain buffer of so many entries is never short: 1,024 F lines, BEGIN and END.
pub const MOST_CANDIDATES: usize = 1_026;

/// The best structure of a sheet.
#[derive(Clone, Copy, Debug, PartialEq, Eq)]
pub struct Structure<'chain> {
    pub score: i64,
    /// Candidate numbers that rise from 0, which is BEGIN, to n + 1, which is END. Candidate k
    /// between them is the k-th of the n F lines.
    pub chain: &'chain [u32],
}

/// A segment as a record, with the fields of an S line.
#[repr(C)]
#[derive(Clone, Copy, Debug, PartialEq, Eq)]
pub struct Segment {
    /// Segment type, 0 to 15.
    pub kind: u32,
    /// First base, from 1.
    pub start: u32,
    /// Last base, at most 4,000,000.
    pub end: u32,
    /// −10,000,000 to 10,000,000.
    pub score: i64,
}

/// A region, and what a Q line asks about it.
#[repr(C)]
#[derive(Clone, Copy, Debug, PartialEq, Eq)]
pub struct Region {
    /// First base, from 1.
    pub source: u32,
    /// Last base, at most 4,000,000.
    pub target: u32,
    /// Segment type, 0 to 15.
    pub kind: u32,
    /// 1: the segment with the largest share. 2: the best rate for each base, summed.
    pub method: u32,
    /// 0 to 2: only segments whose start is so many bases before the target, modulo 3. 3: all.
    pub phase: u32,
    /// 0: none. 1: segments that start at the source. 2: that end at the target. 3: both.
    pub matching: u32,
}

/// The best structure of a sheet, in the front of the chain buffer.
///
/// The buffer needs an entry for each candidate, BEGIN and END included, however long the chain
/// is; [`MOST_CANDIDATES`] always suffice. Entries behind the chain stay as they were, and on a
/// refusal all do.
pub fn assemble<'chain>(
    sheet: &[u8],
    chain: &'chain mut [u32],
) -> Result<Structure<'chain>, Refusal> {
    let reply = library::assemble(sheet, chain);
    refusal::of_sheet(&reply)?;
    Ok(Structure {
        score: reply.score,
        chain: &chain[..reply.count as usize],
    })
}

/// The score of a chain that is sent in, as [`assemble`] gives one.
pub fn score_chain(sheet: &[u8], chain: &[u32]) -> Result<i64, Refusal> {
    let reply = library::score_chain(sheet, chain);
    refusal::of_sheet(&reply)?;
    Ok(reply.score)
}

/// The score of one region over records, as a Q line has it over the S lines of a sheet.
///
/// Records stand in the order of S lines: by start, then end, then kind, no two with the same
/// three. There are at most 1,024.
///
/// ```
/// use liivokarp::{region_score, Region, Segment};
///
/// let records = [Segment { kind: 0, start: 10, end: 21, score: -2401 }];
/// let region = Region { source: 10, target: 12, kind: 0, method: 1, phase: 3, matching: 0 };
/// assert_eq!(region_score(region, &records), Ok(-601));
/// ```
pub fn region_score(region: Region, records: &[Segment]) -> Result<i64, Refusal> {
    let reply = library::region_score(region, records);
    refusal::of_records(&reply)?;
    Ok(reply.score)
}
