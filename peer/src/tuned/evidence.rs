//! The segment scores of a row of sources.

use super::anchored::{Enders, Starters};
use super::candidates::{Candidates, Slots, ALL};
use super::routes::Target;
use super::running::Running;
use super::shares::Shares;
use super::whole::floor_of_thousandth;
use crate::sheet::{Qualifier, Segment, Sheet};

const SEGMENT_KINDS: usize = 16;
const GROUPS: usize = SEGMENT_KINDS * 4;

/// The totals of sources of one class, which stand in the slots from `low` on.
pub struct Row<'a> {
    pub class: usize,
    pub low: usize,
    pub totals: &'a mut [f64],
}

/// The segments, in the forms that the sheet's qualifiers ask for.
pub struct Evidence {
    /// By segment type and class of the start.
    running: [Option<Running>; GROUPS],
    shares: [Option<Shares>; GROUPS],
    /// By segment type and method.
    starters: [Option<Starters>; SEGMENT_KINDS * 2],
    /// By segment type.
    enders: [Option<Enders>; SEGMENT_KINDS],
}

impl Evidence {
    pub fn of(sheet: &Sheet, candidates: &Candidates, slots: &Slots) -> Evidence {
        let mut evidence = Evidence {
            running: [const { None }; GROUPS],
            shares: [const { None }; GROUPS],
            starters: [const { None }; SEGMENT_KINDS * 2],
            enders: [const { None }; SEGMENT_KINDS],
        };
        let mut of_kind: Vec<Vec<Segment>> = (0..SEGMENT_KINDS).map(|_| Vec::new()).collect();
        for segment in &sheet.segments {
            of_kind[segment.kind as usize].push(*segment);
        }
        for qualifier in &sheet.qualifiers {
            let segments = &of_kind[qualifier.kind as usize];
            if !segments.is_empty() {
                evidence.prepare(qualifier, segments, candidates, slots);
            }
        }
        evidence
    }

    fn prepare(
        &mut self,
        qualifier: &Qualifier,
        segments: &[Segment],
        candidates: &Candidates,
        slots: &Slots,
    ) {
        match qualifier.matching {
            0 => {
                let classes = if qualifier.phase == 3 {
                    ALL..ALL + 1
                } else {
                    0..3
                };
                for class in classes {
                    self.prepare_group(qualifier, class, segments, candidates, slots);
                }
            }
            1 => {
                self.starters[starters_of(qualifier)].get_or_insert_with(|| {
                    Starters::of(qualifier.method, segments, candidates, slots)
                });
            }
            _ => {
                self.enders[qualifier.kind as usize]
                    .get_or_insert_with(|| Enders::of(segments.to_vec()));
            }
        }
    }

    fn prepare_group(
        &mut self,
        qualifier: &Qualifier,
        class: usize,
        segments: &[Segment],
        candidates: &Candidates,
        slots: &Slots,
    ) {
        let group = group_of(qualifier, class);
        let prepared = if qualifier.method == 1 {
            self.shares[group].is_some()
        } else {
            self.running[group].is_some()
        };
        if prepared {
            return;
        }
        let of_class: Vec<Segment> = segments
            .iter()
            .copied()
            .filter(|segment| class == ALL || segment.start as usize % 3 == class)
            .collect();
        if of_class.is_empty() {
            return;
        }
        if qualifier.method == 1 {
            self.shares[group] = Some(Shares::of(&of_class, candidates));
        } else {
            self.running[group] = Some(Running::of(&of_class, candidates, slots));
        }
    }

    pub fn pass(&mut self, candidates: &Candidates, slots: &Slots, position: i32) {
        for starters in self.starters.iter_mut().flatten() {
            starters.pass(candidates, slots, position);
        }
        for enders in self.enders.iter_mut().flatten() {
            enders.pass(position);
        }
    }

    /// Adds what the qualifier gives to each source of the row.
    pub fn add(
        &mut self,
        qualifier: &Qualifier,
        candidates: &Candidates,
        slots: &Slots,
        target: &Target,
        row: &mut Row,
    ) {
        let low = row.low;
        let high = low + row.totals.len();
        let totals = &mut *row.totals;
        let positions = &slots.position[low..high];
        let starts = target.class_before(qualifier.phase);
        let method = qualifier.method;
        match qualifier.matching {
            0 if method == 1 => {
                if let Some(shares) = &mut self.shares[group_of(qualifier, starts)] {
                    let scores = shares.row(candidates, target.position, target.place);
                    add_by_place(totals, scores, &slots.place[low..high]);
                }
            }
            0 => {
                if let Some(running) = &self.running[group_of(qualifier, starts)] {
                    let through = running.through[target.number];
                    add_difference(totals, through, &running.before[low..high]);
                }
            }
            1 => {
                if let Some(starters) = &self.starters[starters_of(qualifier)] {
                    if starts == ALL || starts == row.class {
                        starters.add(totals, low, positions, target.position);
                    }
                }
            }
            2 => {
                if let Some(enders) = &self.enders[qualifier.kind as usize] {
                    enders.add(method, starts, totals, positions, target.position);
                }
            }
            _ => {
                if let Some(enders) = &self.enders[qualifier.kind as usize] {
                    enders.add_exact(method, starts, totals, positions);
                }
            }
        }
    }
}

#[inline(never)]
fn add_by_place(row: &mut [f64], scores: &[f64], places: &[usize]) {
    for (total, &place) in row.iter_mut().zip(places) {
        *total += scores[place];
    }
}

#[inline(never)]
fn add_difference(row: &mut [f64], through: f64, before: &[f64]) {
    for (total, &before) in row.iter_mut().zip(before) {
        *total += floor_of_thousandth(through - before);
    }
}

fn group_of(qualifier: &Qualifier, class: usize) -> usize {
    qualifier.kind as usize * 4 + class
}

fn starters_of(qualifier: &Qualifier) -> usize {
    qualifier.kind as usize * 2 + qualifier.method as usize - 1
}
