//! Running sums of the best rate of each base, for method 2 with match 0.

use super::candidates::{Candidates, Slots};
use crate::score::floor_quotient;
use crate::sheet::Segment;

/// The sum, in millionths, of the rates of all bases up to a position: through that of each
/// candidate, and before that of each slot's source.
pub struct Running {
    pub through: Vec<f64>,
    pub before: Vec<f64>,
}

/// Bases with one rate.
struct Stretch {
    first: i64,
    last: i64,
    rate: i64,
}

impl Running {
    pub fn of(segments: &[Segment], candidates: &Candidates, slots: &Slots) -> Running {
        let stretches = stretches_of(segments);
        let mut through = Vec::with_capacity(candidates.places.len());
        let mut before = Vec::with_capacity(candidates.places.len());
        let mut sum = 0;
        let mut next = 0;
        for &place in &candidates.places {
            let position = place as i64;
            while next < stretches.len() && stretches[next].last < position {
                let stretch = &stretches[next];
                sum += stretch.rate * (stretch.last - stretch.first + 1);
                next += 1;
            }
            let (so_far, here) = match stretches.get(next) {
                Some(stretch) if stretch.first <= position => {
                    (stretch.rate * (position - stretch.first), stretch.rate)
                }
                _ => (0, 0),
            };
            before.push((sum + so_far) as f64);
            through.push((sum + so_far + here) as f64);
        }
        Running {
            through: candidates
                .place
                .iter()
                .map(|&place| through[place])
                .collect(),
            before: slots.place.iter().map(|&place| before[place]).collect(),
        }
    }
}

fn rate_of(segment: &Segment) -> i64 {
    let length = i64::from(segment.end) - i64::from(segment.start) + 1;
    floor_quotient(1000 * segment.score, length)
}

/// The stretches whose rate is not 0, rising. A segment elsewhere lifts a base to 0, so that rates
/// below 0 stand only where all segments hold the base and none has a better rate.
fn stretches_of(segments: &[Segment]) -> Vec<Stretch> {
    let best = segments.iter().map(rate_of).max().unwrap_or(0);
    if best >= 0 {
        return painted(segments);
    }
    let first = segments.iter().map(|segment| segment.start).max();
    let last = segments.iter().map(|segment| segment.end).min();
    match (first, last) {
        (Some(first), Some(last)) if first <= last => vec![Stretch {
            first: i64::from(first),
            last: i64::from(last),
            rate: best,
        }],
        _ => Vec::new(),
    }
}

/// Paints the bases from the best rate down, each base once.
fn painted(segments: &[Segment]) -> Vec<Stretch> {
    let mut brushes: Vec<(i64, u32, u32)> = segments
        .iter()
        .map(|segment| (rate_of(segment), segment.start, segment.end + 1))
        .filter(|&(rate, _, _)| rate > 0)
        .collect();
    brushes.sort_unstable_by(|one, other| other.cmp(one));
    let mut borders: Vec<u32> = brushes
        .iter()
        .flat_map(|&(_, start, behind)| [start, behind])
        .collect();
    borders.sort_unstable();
    borders.dedup();
    let mut rates = vec![0; borders.len()];
    let mut unpainted: Vec<usize> = (0..=borders.len()).collect();
    for (rate, start, behind) in brushes {
        let last = borders.partition_point(|&border| border < behind);
        let mut at = borders.partition_point(|&border| border < start);
        loop {
            at = next_unpainted(&mut unpainted, at);
            if at >= last {
                break;
            }
            rates[at] = rate;
            unpainted[at] = at + 1;
        }
    }
    borders
        .windows(2)
        .zip(rates)
        .filter(|&(_, rate)| rate > 0)
        .map(|(border, rate)| Stretch {
            first: i64::from(border[0]),
            last: i64::from(border[1]) - 1,
            rate,
        })
        .collect()
}

fn next_unpainted(unpainted: &mut [usize], mut at: usize) -> usize {
    while unpainted[at] != at {
        unpainted[at] = unpainted[unpainted[at]];
        at = unpainted[at];
    }
    at
}
