//! Which sources a rule allows for a target.

use super::candidates::{Candidates, Slots, ALL, KINDS};
use crate::sheet::{Interruption, Qualifier, Rule};
use std::ops::Range;

/// The target at hand.
#[derive(Clone, Copy)]
pub struct Target {
    pub number: usize,
    pub position: i32,
    pub place: usize,
}

impl Target {
    /// The class of positions at a distance of this phase before the target.
    pub fn class_before(&self, phase: u32) -> usize {
        if phase == 3 {
            ALL
        } else {
            (self.position as usize + 3 - phase as usize) % 3
        }
    }
}

/// A rule made ready. The borders of what it allows only rise from target to target, given the
/// target's class and the sources' class.
pub struct Route {
    source: usize,
    min: i32,
    max: i32,
    phase: u32,
    interruption: Interruption,
    pub function: usize,
    pub qualifiers: Vec<Qualifier>,
    by_class: bool,
    low: [[usize; 4]; 3],
    high: [usize; 4],
}

impl Route {
    pub fn of(rule: &Rule, qualifiers: &[Qualifier], slots: &Slots) -> Route {
        let source = rule.source as usize;
        let begin = [0, 1, 2, ALL].map(|class| slots.begin(source, class));
        let asks_for_class =
            |qualifier: &Qualifier| qualifier.phase != 3 && qualifier.matching == 1;
        Route {
            source,
            min: rule.min as i32,
            max: rule.max as i32,
            phase: rule.phase,
            interruption: rule.interruption,
            function: rule.function as usize,
            qualifiers: qualifiers.to_vec(),
            by_class: matches!(rule.interruption, Interruption::FromSource { .. })
                || qualifiers.iter().any(asks_for_class),
            low: [begin; 3],
            high: begin,
        }
    }

    pub fn classes(&self, target: &Target) -> Range<usize> {
        if self.phase != 3 {
            let class = target.class_before(self.phase);
            class..class + 1
        } else if self.by_class {
            0..3
        } else {
            ALL..ALL + 1
        }
    }

    /// The slots of the sources from which this rule allows a step to the target.
    pub fn allowed(
        &mut self,
        slots: &Slots,
        interrupters: &Interrupters,
        target: &Target,
        class: usize,
    ) -> Range<usize> {
        let filled = slots.filled(self.source, class);
        let nearest = target.position - self.min;
        let high = &mut self.high[class];
        while *high < filled && slots.position[*high] <= nearest {
            *high += 1;
        }
        let interrupter = match self.interruption {
            Interruption::None => 0,
            Interruption::FromSource { kind, remainder } => {
                interrupters.last(kind, class + remainder as usize)
            }
            Interruption::FromTarget { kind, remainder } => {
                interrupters.last(kind, target.class_before(remainder))
            }
        };
        let farthest = interrupter.max(target.position - self.max);
        let low = &mut self.low[target.position as usize % 3][class];
        while *low < *high && slots.position[*low] < farthest {
            *low += 1;
        }
        *low..*high
    }
}

/// The last position before the target of each type and class.
pub struct Interrupters {
    last: [i32; KINDS * 3],
    passed: usize,
}

impl Interrupters {
    pub fn new() -> Interrupters {
        Interrupters {
            last: [0; KINDS * 3],
            passed: 0,
        }
    }

    pub fn pass(&mut self, candidates: &Candidates, position: i32) {
        while candidates.position[self.passed] < position {
            let at = candidates.position[self.passed];
            self.last[candidates.kind[self.passed] * 3 + at as usize % 3] = at;
            self.passed += 1;
        }
    }

    fn last(&self, kind: u32, class: usize) -> i32 {
        self.last[kind as usize * 3 + class % 3]
    }
}
