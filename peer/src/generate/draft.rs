//! A sheet as lines by group, before its trailer is set.

use crate::sheet::{Interruption, Rule, Sheet};

#[derive(Clone)]
pub struct Draft {
    /// The lines of L, P, R, Q, F and S without their line feeds.
    pub groups: [Vec<Vec<u8>>; 6],
}

impl Draft {
    pub fn of(sheet: &Sheet) -> Draft {
        let points = sheet.points.iter().map(|point| {
            let (function, distance) = point.key();
            format!("P {function} {distance} {}", point.penalty)
        });
        let qualifiers = sheet.qualifiers.iter().map(|qualifier| {
            let (source, target, kind) = qualifier.key();
            let (method, phase) = (qualifier.method, qualifier.phase);
            format!(
                "Q {source} {target} {kind} {method} {phase} {}",
                qualifier.matching
            )
        });
        let features = sheet.features.iter().map(|feature| {
            let (position, kind) = feature.key();
            format!("F {kind} {position} {}", feature.score)
        });
        let segments = sheet.segments.iter().map(|segment| {
            let (start, end, kind) = segment.key();
            format!("S {kind} {start} {end} {}", segment.score)
        });
        Draft {
            groups: [
                vec![format!("L {}", sheet.length).into_bytes()],
                points.map(String::into_bytes).collect(),
                sheet.rules.iter().map(rule_line).collect(),
                qualifiers.map(String::into_bytes).collect(),
                features.map(String::into_bytes).collect(),
                segments.map(String::into_bytes).collect(),
            ],
        }
    }

    /// The lines without a trailer.
    pub fn body(&self) -> Vec<u8> {
        let mut text = Vec::new();
        for line in self.groups.iter().flatten() {
            text.extend_from_slice(line);
            text.push(b'\n');
        }
        text
    }

    pub fn offset(&self, group: usize, line: usize) -> usize {
        let before = self.groups[..group].iter().flatten();
        let within = self.groups[group][..line].iter();
        before.chain(within).map(|line| line.len() + 1).sum()
    }

    /// Where the groups P, R, Q, F and S begin.
    pub fn begins(&self) -> [usize; 5] {
        [1, 2, 3, 4, 5].map(|group| self.offset(group, 0))
    }

    pub fn text(&self) -> Vec<u8> {
        with_trailer(self.body(), &trailer(&self.begins()))
    }
}

/// A trailer line without its line feed.
pub fn trailer(begins: &[usize]) -> Vec<u8> {
    let numbers: String = begins.iter().map(|begin| format!(" {begin}")).collect();
    format!("T{numbers}").into_bytes()
}

pub fn with_trailer(mut body: Vec<u8>, trailer: &[u8]) -> Vec<u8> {
    body.extend_from_slice(trailer);
    body.push(b'\n');
    body
}

fn rule_line(rule: &Rule) -> Vec<u8> {
    let interruption = match rule.interruption {
        Interruption::None => "0 0 0".to_string(),
        Interruption::FromSource { kind, remainder } => format!("1 {kind} {remainder}"),
        Interruption::FromTarget { kind, remainder } => format!("2 {kind} {remainder}"),
    };
    let (source, target) = rule.key();
    let (min, max, phase) = (rule.min, rule.max, rule.phase);
    format!(
        "R {source} {target} {min} {max} {phase} {interruption} {}",
        rule.function
    )
    .into_bytes()
}
