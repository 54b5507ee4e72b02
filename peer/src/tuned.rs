//! The programme made for speed.
//!
//! For each target and each rule into its type, the sources that the rule allows stand side by side
//! in one list (three, where the class of a position matters), so that no pair is tested for
//! legality. Segment scores of such a stretch of sources are added column by column.

mod anchored;
mod candidates;
mod curves;
mod evidence;
mod routes;
mod running;
mod shares;
mod whole;

use crate::chains::{trace, Best};
use crate::sheet::Sheet;
use candidates::{Candidates, Slots, KINDS};
use curves::Curve;
use evidence::{Evidence, Row};
use routes::{Interrupters, Route, Target};
use whole::larger;

const CURVES: usize = 18;

pub fn best(sheet: &Sheet) -> Option<Best> {
    let candidates = Candidates::of(sheet);
    let mut slots = Slots::of(&candidates);
    let mut model = Model::of(sheet, &candidates, &slots);
    let end = candidates.end();
    let mut sources = vec![0];
    let mut total = 0.0;
    slots.fill(0, 0, total);
    for target in 1..=end {
        let choice = model.choose(&candidates, &slots, target);
        sources.push(choice.source);
        total = choice.total + candidates.score[target];
        if target < end {
            slots.fill(candidates.kind[target], target, total);
        }
    }
    (total > f64::NEG_INFINITY).then(|| Best {
        score: total as i64,
        chain: trace(end, |target| sources[target]),
    })
}

/// The best source of a target so far. A source that no chain reaches has the total minus infinity.
struct Choice {
    total: f64,
    source: usize,
}

impl Choice {
    /// Among equals the later source wins.
    fn consider(&mut self, totals: &[f64], sources: &[usize]) {
        let total = largest(totals);
        if total < self.total {
            return;
        }
        let at = totals.iter().rposition(|&other| other == total);
        let source = at.map_or(0, |at| sources[at]);
        if total > self.total || source > self.source {
            self.total = total;
            self.source = source;
        }
    }
}

struct Model {
    /// By target type.
    routes: Vec<Vec<Route>>,
    curves: [Option<Curve>; CURVES],
    interrupters: Interrupters,
    evidence: Evidence,
    totals: Vec<f64>,
}

impl Model {
    fn of(sheet: &Sheet, candidates: &Candidates, slots: &Slots) -> Model {
        let mut routes: Vec<Vec<Route>> = (0..KINDS).map(|_| Vec::new()).collect();
        let mut curves = [const { None }; CURVES];
        for rule in &sheet.rules {
            let first = sheet
                .qualifiers
                .partition_point(|other| (other.source, other.target) < rule.key());
            let behind = sheet
                .qualifiers
                .partition_point(|other| (other.source, other.target) <= rule.key());
            let qualifiers = &sheet.qualifiers[first..behind];
            routes[rule.target as usize].push(Route::of(rule, qualifiers, slots));
            if rule.function != 0 && curves[rule.function as usize].is_none() {
                curves[rule.function as usize] = Some(Curve::of(sheet, rule.function));
            }
        }
        Model {
            routes,
            curves,
            interrupters: Interrupters::new(),
            evidence: Evidence::of(sheet, candidates, slots),
            totals: vec![0.0; slots.len()],
        }
    }

    fn choose(&mut self, candidates: &Candidates, slots: &Slots, target: usize) -> Choice {
        let position = candidates.position[target];
        self.interrupters.pass(candidates, position);
        self.evidence.pass(candidates, slots, position);
        let kind = candidates.kind[target];
        let target = Target {
            number: target,
            position,
            place: candidates.place[target],
        };
        let mut choice = Choice {
            total: f64::NEG_INFINITY,
            source: 0,
        };
        for route in &mut self.routes[kind] {
            let curve = self.curves[route.function].as_ref();
            for class in route.classes(&target) {
                let allowed = route.allowed(slots, &self.interrupters, &target, class);
                if allowed.is_empty() {
                    continue;
                }
                let mut row = Row {
                    class,
                    low: allowed.start,
                    totals: &mut self.totals[..allowed.len()],
                };
                row.totals.copy_from_slice(&slots.total[allowed.clone()]);
                for qualifier in &route.qualifiers {
                    self.evidence
                        .add(qualifier, candidates, slots, &target, &mut row);
                }
                if let Some(curve) = curve {
                    curve.take_off(row.totals, &slots.position[allowed.clone()], position);
                }
                choice.consider(row.totals, &slots.source[allowed]);
            }
        }
        choice
    }
}

/// The largest of a row of at least one.
#[inline(never)]
fn largest(row: &[f64]) -> f64 {
    let mut lanes = [f64::NEG_INFINITY; 8];
    let (eights, rest) = row.as_chunks::<8>();
    for eight in eights {
        for (lane, &total) in lanes.iter_mut().zip(eight) {
            *lane = larger(total, *lane);
        }
    }
    let best = rest
        .iter()
        .fold(f64::NEG_INFINITY, |best, &total| larger(total, best));
    lanes.iter().fold(best, |best, &lane| larger(lane, best))
}
