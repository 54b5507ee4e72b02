//! One region score over segments that a host lends as records.

use crate::reply::{Refusal, Reply, BEYOND_MOST, OUT_OF_ORDER, OUT_OF_RANGE};
use crate::score::{self, Question};
use crate::sheet::{segment_of, Segment, LONGEST, MOST_SEGMENTS};

#[repr(C)]
#[derive(Clone, Copy, Debug, PartialEq, Eq)]
pub struct Region {
    pub source: u32,
    pub target: u32,
    pub kind: u32,
    pub method: u32,
    pub phase: u32,
    pub matching: u32,
}

pub fn region_score(region: Region, records: &[Segment]) -> Reply {
    match scored(&region, records) {
        Ok(score) => Reply::done(score, 0),
        Err(refusal) => refusal.into(),
    }
}

fn scored(region: &Region, records: &[Segment]) -> Result<i64, Refusal> {
    let question = question_of(region).ok_or(Refusal::new(OUT_OF_RANGE, 0))?;
    for index in 0..records.len() {
        check_record(records, index).map_err(|number| Refusal::new(number, index + 1))?;
    }
    Ok(score::region_score(&question, records))
}

fn question_of(region: &Region) -> Option<Question> {
    let source = i64::from(region.source);
    let target = i64::from(region.target);
    let ranges = 1 <= source
        && source <= target
        && target <= LONGEST
        && region.kind <= 15
        && (1..=2).contains(&region.method)
        && region.phase <= 3
        && region.matching <= 3;
    ranges.then_some(Question {
        source,
        target,
        kind: region.kind,
        method: region.method,
        phase: region.phase,
        matching: region.matching,
    })
}

fn check_record(records: &[Segment], index: usize) -> Result<(), u64> {
    if index >= MOST_SEGMENTS {
        return Err(BEYOND_MOST);
    }
    let record = &records[index];
    let fields = [
        i64::from(record.kind),
        i64::from(record.start),
        i64::from(record.end),
        record.score,
    ];
    segment_of(LONGEST, fields).ok_or(OUT_OF_RANGE)?;
    if index > 0 && records[index - 1].key() >= record.key() {
        return Err(OUT_OF_ORDER);
    }
    Ok(())
}
