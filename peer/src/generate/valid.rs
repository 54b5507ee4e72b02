//! Valid sheets.

use super::draft::Draft;
use super::random::Random;
use crate::sheet::{
    Feature, Interruption, Point, Qualifier, Rule, Segment, Sheet, INTRON_FUNCTION, LARGEST_SCORE,
    LONGEST, MOST_BYTES,
};
use std::collections::BTreeMap;

/// What scores and penalties look like.
#[derive(Clone, Copy)]
enum Scores {
    /// Few values, so that chains tie.
    Few,
    Some(i64),
}

impl Scores {
    fn draw(self, random: &mut Random) -> i64 {
        match self {
            Scores::Few => random.pick(&[-200, -100, 0, 0, 100, 200]),
            Scores::Some(most) => random.between(-most, most),
        }
    }
}

struct Plan {
    length: i64,
    kinds: usize,
    segment_kinds: usize,
    functions: usize,
    points: usize,
    rules: usize,
    qualifiers: usize,
    features: usize,
    segments: usize,
    /// The share of rules that ask for something beyond a distance.
    strict: u64,
    scores: Scores,
    points_scores: Scores,
}

/// Few features and types, so that all chains can be tried; everything else at random.
pub fn small(random: &mut Random) -> Sheet {
    let kinds = 1 + random.below(4);
    let pairs = (kinds + 1) * (kinds + 1);
    let scores = few_or(random, &[5, 999, LARGEST_SCORE]);
    let plan = Plan {
        length: random.between(1, 60),
        kinds,
        segment_kinds: 1 + random.below(3),
        functions: random.below(4),
        points: random.below(9),
        rules: pairs - random.below(1 + pairs / 3),
        qualifiers: random.below(2 * pairs),
        features: random.below(10),
        segments: random.below(10),
        strict: random.pick(&[0, 20, 60]),
        scores,
        points_scores: scores,
    };
    make(random, &plan)
}

/// Up to a few dozen features on a sequence of any length.
pub fn medium(random: &mut Random) -> Sheet {
    let length = random.pick(&[60, 400, 4_000, 100_000, LONGEST]);
    let scores = few_or(random, &[999, LARGEST_SCORE]);
    let plan = Plan {
        length: random.between(length / 2, length),
        kinds: 1 + random.below(6),
        segment_kinds: 1 + random.below(4),
        functions: random.below(6),
        points: random.below(40),
        rules: 8 + random.below(40),
        qualifiers: random.below(50),
        features: 10 + random.below(40),
        segments: random.below(60),
        strict: random.pick(&[0, 10, 30]),
        scores,
        points_scores: scores,
    };
    make(random, &plan)
}

/// Hundreds of features and segments under many rules.
pub fn large(random: &mut Random) -> Sheet {
    let length = random.pick(&[300, 4_000, 100_000, LONGEST]);
    let scores = few_or(random, &[999, LARGEST_SCORE]);
    let plan = Plan {
        length,
        kinds: 2 + random.below(12),
        segment_kinds: random.pick(&[1, 4, 16]),
        functions: 8,
        points: 100,
        rules: 150,
        qualifiers: 200,
        features: 100 + random.below(100),
        segments: 100 + random.below(100),
        strict: random.pick(&[0, 10, 30, 100]),
        scores,
        points_scores: scores,
    };
    make(random, &plan)
}

/// Every group at its most, or nearly so, where the sequence has too few positions.
pub fn full(random: &mut Random) -> Sheet {
    let scores = few_or(random, &[99, 9_999]);
    let plan = Plan {
        length: random.pick(&[2_000, 20_000, 99_000]),
        kinds: 15 + random.below(9),
        segment_kinds: random.pick(&[1, 2, 5, 16]),
        functions: 16,
        points: 512,
        rules: 256,
        qualifiers: 256,
        features: 1_024,
        segments: 1_024,
        strict: random.pick(&[0, 10, 100]),
        scores,
        points_scores: Scores::Some(999),
    };
    make(random, &plan)
}

/// A sheet whose text has exactly the most bytes, or so many more.
pub fn brimful(random: &mut Random, beyond: usize) -> Vec<u8> {
    let plan = Plan {
        length: LONGEST,
        kinds: 20,
        segment_kinds: 16,
        functions: 16,
        points: 512,
        rules: 256,
        qualifiers: 256,
        features: 1_024,
        segments: 1_024,
        strict: 0,
        scores: Scores::Some(99_999),
        points_scores: Scores::Some(LARGEST_SCORE),
    };
    let mut sheet = make(random, &plan);
    for feature in &mut sheet.features {
        feature.score = 1;
    }
    let size = MOST_BYTES + beyond;
    while Draft::of(&sheet).text().len() > size {
        sheet.segments.truncate(sheet.segments.len() - 8);
    }
    let mut missing = size - Draft::of(&sheet).text().len();
    for feature in &mut sheet.features {
        let zeros = missing.min(6);
        feature.score = 10_i64.pow(zeros as u32);
        missing -= zeros;
    }
    Draft::of(&sheet).text()
}

fn few_or(random: &mut Random, mosts: &[i64]) -> Scores {
    if random.chance(50) {
        Scores::Few
    } else {
        Scores::Some(random.pick(mosts))
    }
}

fn make(random: &mut Random, plan: &Plan) -> Sheet {
    let all_kinds: Vec<u32> = (2..=31).collect();
    let kinds = random.some(&all_kinds, plan.kinds);
    let points = points(random, plan);
    let rules = rules(random, plan, &kinds, &points);
    let qualifiers = qualifiers(random, plan, &rules);
    let features = features(random, plan, &kinds);
    let segments = segments(random, plan, &features);
    Sheet {
        length: plan.length as u32,
        points,
        rules,
        qualifiers,
        features,
        segments,
    }
}

fn points(random: &mut Random, plan: &Plan) -> Vec<Point> {
    let mut points = BTreeMap::new();
    let farthest = (plan.length + plan.length / 4).min(LONGEST);
    let functions: Vec<u32> = (1..=16).collect();
    let functions = random.some(&functions, plan.functions);
    for _ in 0..plan.points * 2 {
        if functions.is_empty() || points.len() == plan.points {
            break;
        }
        let key = (random.pick(&functions), random.between(0, farthest) as u32);
        points.insert(key, plan.points_scores.draw(random));
    }
    let point = |((function, distance), penalty)| Point {
        function,
        distance,
        penalty,
    };
    points.into_iter().map(point).collect()
}

fn rules(random: &mut Random, plan: &Plan, kinds: &[u32], points: &[Point]) -> Vec<Rule> {
    let mut functions: Vec<u32> = points.iter().map(|point| point.function).collect();
    functions.extend([0, INTRON_FUNCTION]);
    functions.dedup();
    let mut pairs = Vec::new();
    for &source in [0].iter().chain(kinds) {
        for &target in [1].iter().chain(kinds) {
            pairs.push((source, target));
        }
    }
    random
        .some(&pairs, plan.rules)
        .into_iter()
        .map(|pair| rule(random, plan, pair, kinds, &functions))
        .collect()
}

fn rule(
    random: &mut Random,
    plan: &Plan,
    (source, target): (u32, u32),
    kinds: &[u32],
    functions: &[u32],
) -> Rule {
    let mut rule = Rule {
        source,
        target,
        min: 0,
        max: random.pick(&[plan.length, LONGEST]) as u32,
        phase: 3,
        interruption: Interruption::None,
        function: random.pick(functions),
    };
    if random.chance(plan.strict) {
        rule.min = random.between(0, plan.length / 8) as u32;
    }
    if random.chance(plan.strict) {
        rule.max = rule.min + random.between(0, plan.length - i64::from(rule.min)) as u32;
    }
    if random.chance(plan.strict) {
        rule.phase = random.between(0, 3) as u32;
    }
    if random.chance(plan.strict) {
        let kind = random.pick(kinds);
        let remainder = random.between(0, 2) as u32;
        rule.interruption = random.pick(&[
            Interruption::FromSource { kind, remainder },
            Interruption::FromTarget { kind, remainder },
        ]);
    }
    rule
}

fn qualifiers(random: &mut Random, plan: &Plan, rules: &[Rule]) -> Vec<Qualifier> {
    let mut keys = Vec::new();
    for rule in rules {
        for kind in 0..plan.segment_kinds as u32 {
            keys.push((rule.source, rule.target, kind));
        }
    }
    let phases: &[u32] = if plan.strict == 0 {
        &[3]
    } else {
        &[0, 1, 2, 3, 3]
    };
    random
        .some(&keys, plan.qualifiers)
        .into_iter()
        .map(|(source, target, kind)| Qualifier {
            source,
            target,
            kind,
            method: random.between(1, 2) as u32,
            phase: random.pick(phases),
            matching: random.pick(&[0, 0, 1, 2, 3]),
        })
        .collect()
}

fn features(random: &mut Random, plan: &Plan, kinds: &[u32]) -> Vec<Feature> {
    let mut features = BTreeMap::new();
    for _ in 0..plan.features * 2 {
        if features.len() == plan.features {
            break;
        }
        let key = (random.between(1, plan.length) as u32, random.pick(kinds));
        features.insert(key, plan.scores.draw(random));
    }
    let feature = |((position, kind), score)| Feature {
        kind,
        position,
        score,
    };
    features.into_iter().map(feature).collect()
}

/// Starts and ends often are positions of features, as the matches ask for them.
fn segments(random: &mut Random, plan: &Plan, features: &[Feature]) -> Vec<Segment> {
    let mut segments = BTreeMap::new();
    let sign = random.pick(&[1, 1, 1, -1]);
    let place = |random: &mut Random| {
        if features.is_empty() || random.chance(40) {
            random.between(1, plan.length) as u32
        } else {
            random.pick(features).position
        }
    };
    for _ in 0..plan.segments * 2 {
        if segments.len() == plan.segments {
            break;
        }
        let one = place(random);
        let other = place(random);
        let kind = random.below(plan.segment_kinds) as u32;
        let score = plan.scores.draw(random);
        let score = if sign < 0 { -score.abs() } else { score };
        segments.insert((one.min(other), one.max(other), kind), score);
    }
    let segment = |((start, end, kind), score)| Segment {
        kind,
        start,
        end,
        score,
    };
    segments.into_iter().map(segment).collect()
}
