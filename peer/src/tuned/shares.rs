//! Method 1 with match 0: the largest share of a segment in a region, for all sources of a target.
//!
//! A segment that ended before the target gives each source a share that later targets do not
//! change, so it is entered once. Of the segments that still go on at the target, those that begin
//! at or after the source give a share that is the same for all such sources, and of those that
//! begin before it the one that pays most for each base wins. So no pair looks at a segment.

use super::candidates::Candidates;
use super::whole::{floor, larger};
use crate::sheet::Segment;
use std::cmp::Ordering;

#[derive(Clone, Copy)]
struct Share {
    start: i32,
    end: i32,
    score: f64,
    inverse: f64,
    /// The last places at or before the start and the end.
    start_place: usize,
    end_place: usize,
    /// Rises with what the segment pays for each base.
    rank: usize,
}

impl Share {
    #[inline(always)]
    fn of_bases(&self, bases: f64) -> f64 {
        floor(self.score * bases * self.inverse)
    }
}

pub struct Shares {
    /// In the order of their starts.
    shares: Vec<Share>,
    begun: usize,
    /// Those that the target has reached and not left behind, in the order of their starts.
    open: Vec<Share>,
    /// The best share by place of the segments that the target has left behind.
    closed: Vec<f64>,
    /// Before this position no target has a share.
    silent_before: i32,
    row: Vec<f64>,
    row_position: i32,
}

impl Shares {
    /// The segments are of one type and class and in sheet order.
    ///
    /// A segment that does not touch the region gives 0. One of 0 or more also gives at least 0
    /// where it touches, so that with such a one those below 0 never count. Without one there is a
    /// share only where all segments touch.
    pub fn of(segments: &[Segment], candidates: &Candidates) -> Shares {
        let all_negative = segments.iter().all(|segment| segment.score < 0);
        let counting: Vec<Segment> = segments
            .iter()
            .copied()
            .filter(|segment| all_negative || segment.score > 0)
            .collect();
        let (silent_before, reach) = if all_negative {
            let last_start = segments.iter().map(|segment| segment.start).max();
            let first_end = segments.iter().map(|segment| segment.end).min();
            (last_start.unwrap_or(0), first_end.unwrap_or(0))
        } else {
            (0, 0)
        };
        let touched = |&place: &f64| {
            if place <= f64::from(reach) {
                f64::NEG_INFINITY
            } else {
                0.0
            }
        };
        Shares {
            shares: ranked(&counting, candidates),
            begun: 0,
            open: Vec::with_capacity(counting.len()),
            closed: candidates.places.iter().map(touched).collect(),
            silent_before: silent_before as i32,
            row: vec![0.0; candidates.places.len()],
            row_position: 0,
        }
    }

    /// The best share by place of the source, for a target at this position and place. The targets'
    /// positions never fall.
    pub fn row(&mut self, candidates: &Candidates, position: i32, place: usize) -> &[f64] {
        if position != self.row_position && position >= self.silent_before {
            self.row_position = position;
            self.pass(candidates, position);
            let row = &mut self.row[..=place];
            row.copy_from_slice(&self.closed[..=place]);
            raise_by_covering(row, &self.open, &candidates.places, position);
            raise_by_begun(row, &self.open, position);
        }
        &self.row[..=place]
    }

    fn pass(&mut self, candidates: &Candidates, position: i32) {
        let closed = &mut self.closed;
        let mut stays_open = |share: &Share| {
            let stays = share.end >= position;
            if !stays {
                close(share, closed, &candidates.places);
            }
            stays
        };
        self.open.retain(&mut stays_open);
        while self.begun < self.shares.len() && self.shares[self.begun].start <= position {
            let share = self.shares[self.begun];
            if stays_open(&share) {
                self.open.push(share);
            }
            self.begun += 1;
        }
    }
}

fn ranked(segments: &[Segment], candidates: &Candidates) -> Vec<Share> {
    let mut shares: Vec<Share> = segments
        .iter()
        .map(|segment| Share {
            start: segment.start as i32,
            end: segment.end as i32,
            score: segment.score as f64,
            inverse: 1.0 / length(segment) as f64,
            start_place: candidates.last_place_up_to(segment.start),
            end_place: candidates.last_place_up_to(segment.end),
            rank: 0,
        })
        .collect();
    let mut by_pay: Vec<usize> = (0..segments.len()).collect();
    by_pay.sort_unstable_by(|&one, &other| compare_pay(&segments[one], &segments[other]));
    for (rank, number) in by_pay.into_iter().enumerate() {
        shares[number].rank = rank;
    }
    shares
}

fn length(segment: &Segment) -> i64 {
    i64::from(segment.end) - i64::from(segment.start) + 1
}

fn compare_pay(one: &Segment, other: &Segment) -> Ordering {
    (one.score * length(other)).cmp(&(other.score * length(one)))
}

fn close(share: &Share, closed: &mut [f64], places: &[f64]) {
    let partly = share.start_place + 1..share.end_place + 1;
    raise(&mut closed[..partly.start], share.score);
    let behind = f64::from(share.end) + 1.0;
    for (best, &place) in closed[partly.clone()].iter_mut().zip(&places[partly]) {
        *best = larger(*best, share.of_bases(behind - place));
    }
}

fn raise(row: &mut [f64], least: f64) {
    for best in row {
        *best = larger(*best, least);
    }
}

/// The open segments that begin before the source hold the whole region, and the one that pays most
/// for each base wins.
fn raise_by_covering(row: &mut [f64], open: &[Share], places: &[f64], position: i32) {
    let behind = f64::from(position) + 1.0;
    let mut number = 0;
    while let Some(winner) = open.get(number) {
        let later = &open[number + 1..];
        let lead = later.iter().take_while(|share| share.rank < winner.rank);
        number += 1 + lead.count();
        let next = open.get(number);
        let covered = winner.start_place + 1..next.map_or(row.len(), |share| share.start_place + 1);
        for (best, &place) in row[covered.clone()].iter_mut().zip(&places[covered]) {
            *best = larger(*best, winner.of_bases(behind - place));
        }
    }
}

/// The share of an open segment that begins at or after the source does not depend on the source.
fn raise_by_begun(row: &mut [f64], open: &[Share], position: i32) {
    let mut largest = f64::NEG_INFINITY;
    let mut to = row.len();
    for share in open.iter().rev() {
        let part = share.of_bases(f64::from(position - share.start + 1));
        if part > largest {
            raise(&mut row[share.start_place + 1..to], largest);
            largest = part;
            to = share.start_place + 1;
        }
    }
    raise(&mut row[..to], largest);
}
