//! Segments that begin at the source (match 1), end at the target (match 2) or both (match 3).
//!
//! All of them share one end with the region, so that the region's score depends on its length
//! alone, and changes its form only where the length passes that of a segment.

use super::candidates::{Candidates, Slots, ALL};
use super::whole::{floor, larger};
use crate::score::floor_quotient;
use crate::sheet::Segment;

/// The score of regions up to and with the length `until`, down to the piece before.
#[derive(Clone, Copy)]
struct Piece {
    until: i32,
    closed: f64,
    sum: f64,
    anchor: f64,
    rate: f64,
    inverse: f64,
}

impl Piece {
    fn rising(until: i32, rate: i64, inverse: f64) -> Piece {
        Piece {
            until,
            closed: f64::NEG_INFINITY,
            sum: 0.0,
            anchor: 0.0,
            rate: rate as f64,
            inverse,
        }
    }

    fn level(score: f64) -> Piece {
        Piece {
            until: i32::MAX,
            closed: score,
            sum: score,
            anchor: 0.0,
            rate: 0.0,
            inverse: 1.0,
        }
    }

    #[inline(always)]
    fn at(&self, length: i32) -> f64 {
        let run = f64::from(length) - self.anchor;
        larger(
            self.closed,
            floor((self.sum + self.rate * run) * self.inverse),
        )
    }
}

#[derive(Clone, Copy)]
struct Held {
    length: i64,
    score: i64,
}

impl Held {
    fn of(segment: &Segment) -> Held {
        Held {
            length: i64::from(segment.end) - i64::from(segment.start) + 1,
            score: segment.score,
        }
    }

    fn rate(&self) -> i64 {
        floor_quotient(1000 * self.score, self.length)
    }

    /// Method 1 compares score for base exactly.
    fn pays_more_than(&self, other: &Held) -> bool {
        self.score * other.length > other.score * self.length
    }
}

/// The pieces over segments of rising length, at least one.
fn pieces_of(method: u32, held: &[Held], pieces: &mut Vec<Piece>) {
    pieces.clear();
    if method == 1 {
        pieces_by_share(held, pieces);
    } else {
        pieces_by_rate(held, pieces);
    }
}

fn pieces_by_share(held: &[Held], pieces: &mut Vec<Piece>) {
    let mut open = held[held.len() - 1];
    for segment in held.iter().rev() {
        if segment.pays_more_than(&open) {
            open = *segment;
        }
        let inverse = 1.0 / open.length as f64;
        pieces.push(Piece::rising(segment.length as i32, open.score, inverse));
    }
    pieces.reverse();
    let mut closed = f64::NEG_INFINITY;
    for (segment, piece) in held.iter().zip(pieces.iter_mut()) {
        piece.closed = closed;
        closed = larger(closed, segment.score as f64);
    }
    pieces.push(Piece::level(closed));
}

fn pieces_by_rate(held: &[Held], pieces: &mut Vec<Piece>) {
    let mut best = i64::MIN;
    for segment in held.iter().rev() {
        best = best.max(segment.rate());
        pieces.push(Piece::rising(segment.length as i32, best, 0.001));
    }
    pieces.reverse();
    pieces.push(Piece::rising(i32::MAX, 0, 0.001));
    for number in 1..pieces.len() {
        let before = pieces[number - 1];
        let piece = &mut pieces[number];
        piece.anchor = f64::from(before.until);
        piece.sum = before.sum + before.rate * (piece.anchor - before.anchor);
        piece.rate = larger(0.0, piece.rate);
    }
}

/// The piece of each slot for the segments of one type that begin at its source, for the target
/// position that was passed last.
pub struct Starters {
    closed: Vec<f64>,
    sum: Vec<f64>,
    anchor: Vec<f64>,
    rate: Vec<f64>,
    inverse: Vec<f64>,
    changes: Vec<Change>,
    next: usize,
}

/// Beyond the position the sources at the place have another piece.
struct Change {
    position: i32,
    place: usize,
    piece: Piece,
}

impl Starters {
    /// The segments are of one type and in sheet order.
    pub fn of(
        method: u32,
        segments: &[Segment],
        candidates: &Candidates,
        slots: &Slots,
    ) -> Starters {
        let mut starters = Starters {
            closed: vec![0.0; slots.len()],
            sum: vec![0.0; slots.len()],
            anchor: vec![0.0; slots.len()],
            rate: vec![0.0; slots.len()],
            inverse: vec![0.0; slots.len()],
            changes: Vec::new(),
            next: 0,
        };
        let mut pieces = Vec::new();
        for together in segments.chunk_by(|one, other| one.start == other.start) {
            let Some(place) = candidates.place_at(together[0].start) else {
                continue;
            };
            let held: Vec<Held> = together.iter().map(Held::of).collect();
            pieces_of(method, &held, &mut pieces);
            starters.put(candidates, slots, place, pieces[0]);
            for (segment, &piece) in together.iter().zip(&pieces[1..]) {
                starters.changes.push(Change {
                    position: segment.end as i32,
                    place,
                    piece,
                });
            }
        }
        starters.changes.sort_by_key(|change| change.position);
        starters
    }

    fn put(&mut self, candidates: &Candidates, slots: &Slots, place: usize, piece: Piece) {
        for slot in slots.at_place(candidates, place) {
            self.closed[slot] = piece.closed;
            self.sum[slot] = piece.sum;
            self.anchor[slot] = piece.anchor;
            self.rate[slot] = piece.rate;
            self.inverse[slot] = piece.inverse;
        }
    }

    pub fn pass(&mut self, candidates: &Candidates, slots: &Slots, position: i32) {
        while self.next < self.changes.len() && self.changes[self.next].position < position {
            let Change { place, piece, .. } = self.changes[self.next];
            self.put(candidates, slots, place, piece);
            self.next += 1;
        }
    }

    /// Adds the scores of the sources in the slots from `low` on, at these positions.
    pub fn add(&self, row: &mut [f64], low: usize, positions: &[i32], target: i32) {
        let high = low + row.len();
        let columns = self.closed[low..high]
            .iter()
            .zip(&self.sum[low..high])
            .zip(&self.anchor[low..high])
            .zip(&self.rate[low..high])
            .zip(&self.inverse[low..high]);
        for ((total, &position), ((((&closed, &sum), &anchor), &rate), &inverse)) in
            row.iter_mut().zip(positions).zip(columns)
        {
            let piece = Piece {
                until: i32::MAX,
                closed,
                sum,
                anchor,
                rate,
                inverse,
            };
            *total += piece.at(target - position + 1);
        }
    }
}

/// The segments of one type by their ends, and those that end at the position passed last.
pub struct Enders {
    segments: Vec<Segment>,
    first: usize,
    behind: usize,
}

impl Enders {
    pub fn of(mut segments: Vec<Segment>) -> Enders {
        segments.sort_unstable_by_key(|segment| (segment.end, u32::MAX - segment.start));
        Enders {
            segments,
            first: 0,
            behind: 0,
        }
    }

    pub fn pass(&mut self, position: i32) {
        let count = self.segments.len();
        while self.first < count && (self.segments[self.first].end as i32) < position {
            self.first += 1;
        }
        self.behind = self.behind.max(self.first);
        while self.behind < count && self.segments[self.behind].end as i32 == position {
            self.behind += 1;
        }
    }

    fn here(&self, class: usize) -> impl Iterator<Item = &Segment> {
        self.segments[self.first..self.behind]
            .iter()
            .filter(move |segment| class == ALL || segment.start as usize % 3 == class)
    }

    /// Match 2. The row's regions end at the target and begin at the positions, which rise.
    pub fn add(&self, method: u32, class: usize, row: &mut [f64], positions: &[i32], target: i32) {
        let held: Vec<Held> = self.here(class).map(Held::of).collect();
        if held.is_empty() {
            return;
        }
        let mut pieces = Vec::with_capacity(held.len() + 1);
        pieces_of(method, &held, &mut pieces);
        let mut number = 0;
        for (total, &position) in row.iter_mut().zip(positions).rev() {
            let length = target - position + 1;
            while pieces[number].until < length {
                number += 1;
            }
            *total += pieces[number].at(length);
        }
    }

    /// Match 3. Only the sources at the start of such a segment gain by it.
    pub fn add_exact(&self, method: u32, class: usize, row: &mut [f64], positions: &[i32]) {
        for segment in self.here(class) {
            let held = Held::of(segment);
            let score = if method == 1 {
                held.score
            } else {
                floor_quotient(held.rate() * held.length, 1000)
            };
            let start = segment.start as i32;
            let first = positions.partition_point(|&position| position < start);
            for (total, _) in row[first..]
                .iter_mut()
                .zip(&positions[first..])
                .take_while(|(_, &position)| position == start)
            {
                *total += score as f64;
            }
        }
    }
}
