//! Chains of a sheet: the best one, by trying all and by a programme, and the score of a lent one.

use crate::reply::{Refusal, BREAKS_MODEL, NO_CHAIN};
use crate::score;
use crate::sheet::Sheet;

#[derive(Clone, Debug, PartialEq, Eq)]
pub struct Best {
    pub score: i64,
    pub chain: Vec<u32>,
}

impl Best {
    /// Among equal scores the chain that, read back from END, has the later candidate at the first
    /// difference.
    fn beats(&self, other: &Best) -> bool {
        self.score > other.score
            || self.score == other.score && self.chain.iter().rev().gt(other.chain.iter().rev())
    }
}

/// What each step adds, by source and target; only later candidates can be targets.
struct Steps {
    gains: Vec<Vec<Option<i64>>>,
}

impl Steps {
    fn of(sheet: &Sheet) -> Steps {
        let last = sheet.last_candidate();
        let gains_from = |source| {
            (0..=last)
                .map(|target| {
                    if source < target {
                        score::step(sheet, source, target)
                    } else {
                        None
                    }
                })
                .collect()
        };
        Steps {
            gains: (0..=last).map(gains_from).collect(),
        }
    }
}

/// The best of all valid chains, each of which is looked at.
pub fn best_by_trying_all(sheet: &Sheet) -> Option<Best> {
    let mut best = None;
    let mut begun = Best {
        score: 0,
        chain: vec![0],
    };
    try_all(&Steps::of(sheet), &mut begun, &mut best);
    best
}

fn try_all(steps: &Steps, begun: &mut Best, best: &mut Option<Best>) {
    let source = begun.chain[begun.chain.len() - 1] as usize;
    let end = steps.gains.len() - 1;
    if source == end {
        if best.as_ref().is_none_or(|other| begun.beats(other)) {
            *best = Some(begun.clone());
        }
        return;
    }
    for target in source + 1..=end {
        if let Some(gain) = steps.gains[source][target] {
            begun.score += gain;
            begun.chain.push(target as u32);
            try_all(steps, begun, best);
            begun.chain.pop();
            begun.score -= gain;
        }
    }
}

/// The best score up to each candidate with the source that gives it, the later one among equals.
pub fn best_by_programme(sheet: &Sheet) -> Option<Best> {
    let end = sheet.last_candidate();
    let mut table: Vec<Option<(i64, usize)>> = vec![Some((0, 0))];
    for target in 1..=end {
        let mut entry: Option<(i64, usize)> = None;
        for (source, known) in table.iter().enumerate() {
            let Some((before, _)) = known else {
                continue;
            };
            let Some(gain) = score::step(sheet, source, target) else {
                continue;
            };
            if entry.is_none_or(|(score, _)| before + gain >= score) {
                entry = Some((before + gain, source));
            }
        }
        table.push(entry);
    }
    let (score, _) = table[end]?;
    let source_of = |target: usize| table[target].map_or(0, |(_, source)| source);
    Some(Best {
        score,
        chain: trace(end, source_of),
    })
}

/// The chain from BEGIN to END, read back from END.
pub fn trace(end: usize, source_of: impl Fn(usize) -> usize) -> Vec<u32> {
    let mut chain = vec![end as u32];
    let mut candidate = end;
    while candidate > 0 {
        candidate = source_of(candidate);
        chain.push(candidate as u32);
    }
    chain.reverse();
    chain
}

pub fn score_of_lent_chain(sheet: &Sheet, chain: &[u32]) -> Result<i64, Refusal> {
    if !is_chain(sheet, chain) {
        return Err(Refusal::new(NO_CHAIN, 0));
    }
    let mut score = 0;
    for (index, pair) in chain.windows(2).enumerate() {
        let gain = score::step(sheet, pair[0] as usize, pair[1] as usize);
        score += gain.ok_or(Refusal::new(BREAKS_MODEL, index + 1))?;
    }
    Ok(score)
}

fn is_chain(sheet: &Sheet, chain: &[u32]) -> bool {
    let starts = chain.first() == Some(&0);
    let ends = chain.last() == Some(&(sheet.last_candidate() as u32));
    starts && ends && chain.windows(2).all(|pair| pair[0] < pair[1])
}
