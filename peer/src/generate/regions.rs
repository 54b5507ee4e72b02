//! Regions with the records that a host lends for them.

use super::random::Random;
use crate::records::Region;
use crate::sheet::{Segment, LARGEST_SCORE, LONGEST, MOST_SEGMENTS};

pub fn request(random: &mut Random) -> (Region, Vec<Segment>) {
    let length = random.pick(&[20, 60, 400, 4_000, LONGEST]);
    let kinds = random.pick(&[1, 1, 2, 16]);
    let mut records = records(random, length, kinds);
    let mut region = region(random, length, kinds, &records);
    match random.below(10) {
        0..=1 => break_region(random, &mut region),
        2..=4 if !records.is_empty() => break_records(random, &mut records),
        5 if random.chance(40) => overfill(random, &mut records),
        _ => {}
    }
    if random.chance(2) {
        break_region(random, &mut region);
    }
    (region, records)
}

fn records(random: &mut Random, length: i64, kinds: i64) -> Vec<Segment> {
    let most = random.pick(&[5, 100, LARGEST_SCORE]);
    let least = random.pick(&[-most, -most, -most, 0]);
    let most = random.pick(&[most, most, most, 0]);
    let count = random.pick(&[0, 1, 2, 3, 5, 8, 30]);
    let mut records: Vec<Segment> = (0..random.below(count + 1))
        .map(|_| {
            let one = random.between(1, length) as u32;
            let other = random.between(1, length) as u32;
            Segment {
                kind: random.between(0, kinds - 1) as u32,
                start: one.min(other),
                end: one.max(other),
                score: random.between(least, most),
            }
        })
        .collect();
    records.sort_unstable_by_key(Segment::key);
    records.dedup_by_key(|record| record.key());
    records
}

fn region(random: &mut Random, length: i64, kinds: i64, records: &[Segment]) -> Region {
    let one = random.between(1, length) as u32;
    let other = random.between(1, length) as u32;
    let mut region = Region {
        source: one.min(other),
        target: one.max(other),
        kind: random.between(0, kinds - 1) as u32,
        method: random.between(1, 2) as u32,
        phase: random.pick(&[0, 1, 2, 3, 3, 3]),
        matching: random.between(0, 3) as u32,
    };
    if !records.is_empty() && random.chance(60) {
        let record = random.pick(records);
        if record.start <= region.target && random.chance(70) {
            region.source = record.start;
        }
        if record.end >= region.source && random.chance(70) {
            region.target = record.end;
        }
    }
    region
}

fn break_region(random: &mut Random, region: &mut Region) {
    match random.below(11) {
        0 => region.source = 0,
        1 => region.target = 0,
        2 => region.source = region.target + 1,
        3 => region.target = LONGEST as u32 + 1,
        4 => region.target = u32::MAX,
        5 => region.kind = 16,
        6 => region.method = random.pick(&[0, 3]),
        7 => region.phase = 4,
        8 => region.matching = 4,
        9 => region.kind = u32::MAX,
        _ => region.method = u32::MAX,
    }
}

fn break_records(random: &mut Random, records: &mut Vec<Segment>) {
    let at = random.below(records.len());
    let record = &mut records[at];
    match random.below(13) {
        0 => record.kind = 16,
        1 => record.kind = u32::MAX,
        2 => record.start = 0,
        3 => record.end = record.start - 1,
        4 => record.end = LONGEST as u32 + 1,
        5 => record.start = u32::MAX,
        6 => record.score = LARGEST_SCORE + 1,
        7 => record.score = -LARGEST_SCORE - 1,
        8 => record.score = random.pick(&[i64::MIN, i64::MAX]),
        9..=10 => {
            let mut again = *record;
            again.score /= 2;
            records.insert(at + 1, again);
        }
        _ => {
            let other = random.below(records.len());
            records.swap(at, other);
        }
    }
}

/// Records at and beyond the most, perhaps with a fault before, at or behind the first too many.
fn overfill(random: &mut Random, records: &mut Vec<Segment>) {
    let count = MOST_SEGMENTS + random.below(4);
    *records = (0..count as u32)
        .map(|number| Segment {
            kind: number % 2,
            start: 1 + number / 2,
            end: LONGEST as u32,
            score: i64::from(number),
        })
        .collect();
    if random.chance(40) {
        let at = random.pick(&[0, 500, MOST_SEGMENTS - 1, count - 1]);
        records[at].start = 0;
    }
}
