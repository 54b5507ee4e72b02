//! An independent judge of the gene structure assembler: the same three functions, written from
//! the scope alone.

pub mod chains;
pub mod generate;
pub mod records;
pub mod reply;
pub mod score;
pub mod sheet;
pub mod tuned;

#[cfg(feature = "library")]
pub mod comparison;
#[cfg(feature = "library")]
pub mod library;

pub use records::{region_score, Region};
pub use reply::{Refusal, Reply};
pub use sheet::{Segment, Sheet};

use chains::Best;
use reply::{NO_VALID_CHAIN, SHORT_BUFFER};
use sheet::MOST_CANDIDATES;

/// A way to find the best chain of a sheet.
pub type Way = fn(&Sheet) -> Option<Best>;

/// The best chain of a sheet, written to the front of the buffer.
pub fn assemble(text: &[u8], buffer: &mut [u32]) -> Reply {
    assemble_by(tuned::best, text, buffer)
}

pub fn assemble_by(way: Way, text: &[u8], buffer: &mut [u32]) -> Reply {
    match assembled(way, text, buffer.len()) {
        Ok(best) => {
            buffer[..best.chain.len()].copy_from_slice(&best.chain);
            Reply::done(best.score, best.chain.len())
        }
        Err(refusal) => refusal.into(),
    }
}

fn assembled(way: Way, text: &[u8], room: usize) -> Result<Best, Refusal> {
    let sheet = sheet::read(text)?;
    if room < sheet.last_candidate() + 1 {
        return Err(Refusal::new(SHORT_BUFFER, 0));
    }
    way(&sheet).ok_or(Refusal::new(NO_VALID_CHAIN, 0))
}

/// The score of a lent chain.
pub fn score_chain(text: &[u8], chain: &[u32]) -> Reply {
    let scored = sheet::read(text).and_then(|sheet| chains::score_of_lent_chain(&sheet, chain));
    match scored {
        Ok(score) => Reply::done(score, chain.len()),
        Err(refusal) => refusal.into(),
    }
}

/// What the program `assemble` prints for a sheet.
pub fn report(text: &[u8]) -> String {
    let mut buffer = vec![0; MOST_CANDIDATES];
    let reply = assemble(text, &mut buffer);
    let mut lines = format!("{reply}\n");
    if let Ok(sheet) = sheet::read(text) {
        for &number in &buffer[..reply.count as usize] {
            let candidate = sheet.candidate(number as usize);
            lines += &format!("{number} {} {}\n", candidate.kind, candidate.position);
        }
    }
    lines
}
