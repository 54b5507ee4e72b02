//! Penalty, segment score, legality and gain, straight from the text and without any haste.

use crate::sheet::{
    Feature, Interruption, Point, Qualifier, Rule, Segment, Sheet, INTRON_FUNCTION,
};

const INTRON_POINTS: [(i64, i64); 5] = [(0, 9000), (40, 3000), (56, 0), (400, 1500), (1023, 4000)];

/// Regions up to this length are summed base by base, longer ones stretch by stretch.
const SHORT_REGION: i64 = 200;

pub fn floor_quotient(number: i64, divisor: i64) -> i64 {
    number.div_euclid(divisor)
}

pub fn penalty(points: &[Point], function: u32, distance: i64) -> i64 {
    if function == 0 {
        return 0;
    }
    let line = points_of(points, function);
    let (first_distance, first_penalty) = line[0];
    if distance <= first_distance {
        return first_penalty;
    }
    for pair in line.windows(2) {
        let ((d0, p0), (d1, p1)) = (pair[0], pair[1]);
        if distance <= d1 {
            return p0 + floor_quotient((p1 - p0) * (distance - d0), d1 - d0);
        }
    }
    line[line.len() - 1].1
}

/// The points of a function as distance and penalty.
pub fn points_of(points: &[Point], function: u32) -> Vec<(i64, i64)> {
    if function == INTRON_FUNCTION {
        return INTRON_POINTS.to_vec();
    }
    points
        .iter()
        .filter(|point| point.function == function)
        .map(|point| (i64::from(point.distance), point.penalty))
        .collect()
}

/// What one Q line asks about a region.
#[derive(Clone, Copy, Debug, PartialEq, Eq)]
pub struct Question {
    pub source: i64,
    pub target: i64,
    pub kind: u32,
    pub method: u32,
    pub phase: u32,
    pub matching: u32,
}

impl Question {
    fn new(qualifier: &Qualifier, source: i64, target: i64) -> Question {
        Question {
            source,
            target,
            kind: qualifier.kind,
            method: qualifier.method,
            phase: qualifier.phase,
            matching: qualifier.matching,
        }
    }

    fn takes(&self, segment: &Segment) -> bool {
        let start = i64::from(segment.start);
        let end = i64::from(segment.end);
        let phase = self.phase == 3 || (self.target - start).rem_euclid(3) == i64::from(self.phase);
        let matching = match self.matching {
            0 => true,
            1 => start == self.source,
            2 => end == self.target,
            _ => start == self.source && end == self.target,
        };
        segment.kind == self.kind && phase && matching
    }
}

pub fn region_score(question: &Question, segments: &[Segment]) -> i64 {
    let taken: Vec<Segment> = segments
        .iter()
        .copied()
        .filter(|segment| question.takes(segment))
        .collect();
    if taken.is_empty() {
        return 0;
    }
    if question.method == 1 {
        return best_share(&taken, question.source, question.target);
    }
    let millionths = if question.target - question.source < SHORT_REGION {
        sum_by_base(&taken, question.source, question.target)
    } else {
        sum_by_stretch(&taken, question.source, question.target)
    };
    floor_quotient(millionths, 1000)
}

fn best_share(taken: &[Segment], source: i64, target: i64) -> i64 {
    let shares = taken.iter().map(|segment| {
        let first = source.max(i64::from(segment.start));
        let last = target.min(i64::from(segment.end));
        let overlap = (last - first + 1).max(0);
        floor_quotient(segment.score * overlap, length(segment))
    });
    shares.max().unwrap_or(0)
}

fn length(segment: &Segment) -> i64 {
    i64::from(segment.end) - i64::from(segment.start) + 1
}

fn best_rate_at(taken: &[Segment], base: i64) -> i64 {
    let rates = taken.iter().map(|segment| {
        let holds = i64::from(segment.start) <= base && base <= i64::from(segment.end);
        if holds {
            floor_quotient(1000 * segment.score, length(segment))
        } else {
            0
        }
    });
    rates.max().unwrap_or(0)
}

pub fn sum_by_base(taken: &[Segment], source: i64, target: i64) -> i64 {
    (source..=target)
        .map(|base| best_rate_at(taken, base))
        .sum()
}

/// Between two places where a segment begins or has just ended every base has the same rate.
pub fn sum_by_stretch(taken: &[Segment], source: i64, target: i64) -> i64 {
    let mut borders = vec![source, target + 1];
    for segment in taken {
        borders.push(i64::from(segment.start));
        borders.push(i64::from(segment.end) + 1);
    }
    borders.retain(|&border| source <= border && border <= target + 1);
    borders.sort_unstable();
    borders
        .windows(2)
        .map(|stretch| best_rate_at(taken, stretch[0]) * (stretch[1] - stretch[0]))
        .sum()
}

pub fn rule_between(sheet: &Sheet, source: &Feature, target: &Feature) -> Option<Rule> {
    sheet
        .rules
        .iter()
        .copied()
        .find(|rule| rule.key() == (source.kind, target.kind))
}

fn meets(sheet: &Sheet, rule: &Rule, source: &Feature, target: &Feature) -> bool {
    let distance = target.position - source.position;
    let long_enough = rule.min <= distance && distance <= rule.max;
    let in_phase = rule.phase == 3 || distance % 3 == rule.phase;
    long_enough && in_phase && !interrupted(sheet, rule, source, target)
}

fn interrupted(sheet: &Sheet, rule: &Rule, source: &Feature, target: &Feature) -> bool {
    sheet
        .features
        .iter()
        .filter(|feature| source.position < feature.position && feature.position < target.position)
        .any(|feature| match rule.interruption {
            Interruption::None => false,
            Interruption::FromSource { kind, remainder } => {
                feature.kind == kind && (feature.position - source.position) % 3 == remainder
            }
            Interruption::FromTarget { kind, remainder } => {
                feature.kind == kind && (target.position - feature.position) % 3 == remainder
            }
        })
}

/// What the step from one candidate to a later one adds to a chain, or nothing if it is illegal.
pub fn step(sheet: &Sheet, source: usize, target: usize) -> Option<i64> {
    let source = sheet.candidate(source);
    let target = sheet.candidate(target);
    let rule = rule_between(sheet, &source, &target)?;
    if !meets(sheet, &rule, &source, &target) {
        return None;
    }
    let from = i64::from(source.position);
    let to = i64::from(target.position);
    let segments: i64 = sheet
        .qualifiers
        .iter()
        .filter(|qualifier| (qualifier.source, qualifier.target) == rule.key())
        .map(|qualifier| region_score(&Question::new(qualifier, from, to), &sheet.segments))
        .sum();
    Some(segments - penalty(&sheet.points, rule.function, to - from) + target.score)
}
