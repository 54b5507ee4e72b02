//! Candidates as columns, and the lists of sources by type and class.

use crate::sheet::Sheet;

/// The class of positions is their remainder by 3; this one takes all of them.
pub const ALL: usize = 3;
pub const KINDS: usize = 32;

/// By candidate number.
pub struct Candidates {
    pub kind: Vec<usize>,
    pub position: Vec<i32>,
    pub score: Vec<f64>,
    pub place: Vec<usize>,
    /// The distinct positions, rising.
    pub places: Vec<f64>,
    /// The first candidate at each place, and behind the last place the number of candidates.
    pub first_at: Vec<usize>,
}

impl Candidates {
    pub fn of(sheet: &Sheet) -> Candidates {
        let count = sheet.last_candidate() + 1;
        let mut candidates = Candidates {
            kind: Vec::with_capacity(count),
            position: Vec::with_capacity(count),
            score: Vec::with_capacity(count),
            place: Vec::with_capacity(count),
            places: Vec::with_capacity(count),
            first_at: Vec::with_capacity(count + 1),
        };
        for number in 0..count {
            let candidate = sheet.candidate(number);
            let position = f64::from(candidate.position);
            if candidates.places.last() != Some(&position) {
                candidates.places.push(position);
                candidates.first_at.push(number);
            }
            candidates.kind.push(candidate.kind as usize);
            candidates.position.push(candidate.position as i32);
            candidates.score.push(candidate.score as f64);
            candidates.place.push(candidates.places.len() - 1);
        }
        candidates.first_at.push(count);
        candidates
    }

    pub fn end(&self) -> usize {
        self.kind.len() - 1
    }

    pub fn place_at(&self, position: u32) -> Option<usize> {
        let place = self.last_place_up_to(position);
        (self.places[place] == f64::from(position)).then_some(place)
    }

    /// BEGIN stands at position 1, so there is one.
    pub fn last_place_up_to(&self, position: u32) -> usize {
        let position = f64::from(position);
        self.places.partition_point(|&place| place <= position) - 1
    }
}

/// The sources of each type in a row, once all together and once class by class, so that the
/// sources that a rule allows for one target stand side by side.
pub struct Slots {
    begin: [usize; KINDS * 4 + 1],
    filled: [usize; KINDS * 4],
    of_source: Vec<[usize; 2]>,
    pub position: Vec<i32>,
    pub place: Vec<usize>,
    pub source: Vec<usize>,
    pub total: Vec<f64>,
}

impl Slots {
    pub fn of(candidates: &Candidates) -> Slots {
        let sources = candidates.end();
        let lists = |source: usize| {
            let kind = candidates.kind[source];
            let class = candidates.position[source] as usize % 3;
            [list_of(kind, ALL), list_of(kind, class)]
        };
        let mut begin = [0; KINDS * 4 + 1];
        for source in 0..sources {
            for list in lists(source) {
                begin[list + 1] += 1;
            }
        }
        for list in 0..KINDS * 4 {
            begin[list + 1] += begin[list];
        }
        let mut filled = [0; KINDS * 4];
        filled.copy_from_slice(&begin[..KINDS * 4]);
        let mut slots = Slots {
            begin,
            filled,
            of_source: Vec::with_capacity(sources),
            position: vec![0; 2 * sources],
            place: vec![0; 2 * sources],
            source: vec![0; 2 * sources],
            total: vec![f64::NEG_INFINITY; 2 * sources],
        };
        let mut next = filled;
        for source in 0..sources {
            let own = lists(source).map(|list| {
                let slot = next[list];
                next[list] += 1;
                slots.position[slot] = candidates.position[source];
                slots.place[slot] = candidates.place[source];
                slots.source[slot] = source;
                slot
            });
            slots.of_source.push(own);
        }
        slots
    }

    pub fn len(&self) -> usize {
        self.position.len()
    }

    pub fn begin(&self, kind: usize, class: usize) -> usize {
        self.begin[list_of(kind, class)]
    }

    /// Where the sources end whose totals are known.
    pub fn filled(&self, kind: usize, class: usize) -> usize {
        self.filled[list_of(kind, class)]
    }

    /// The slots of all sources at a place.
    pub fn at_place<'a>(
        &'a self,
        candidates: &Candidates,
        place: usize,
    ) -> impl Iterator<Item = usize> + 'a {
        let first = candidates.first_at[place];
        let behind = candidates.first_at[place + 1].min(self.of_source.len());
        self.of_source[first..behind].iter().flatten().copied()
    }

    pub fn fill(&mut self, kind: usize, source: usize, total: f64) {
        let class = self.position[self.of_source[source][0]] as usize % 3;
        for slot in self.of_source[source] {
            self.total[slot] = total;
        }
        self.filled[list_of(kind, ALL)] += 1;
        self.filled[list_of(kind, class)] += 1;
    }
}

fn list_of(kind: usize, class: usize) -> usize {
    kind * 4 + class
}
