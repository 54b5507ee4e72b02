//! What every function answers.

use std::fmt;

#[repr(C)]
#[derive(Clone, Copy, Debug, PartialEq, Eq)]
pub struct Reply {
    pub number: u64,
    pub place: u64,
    pub score: i64,
    pub count: u64,
}

#[derive(Clone, Copy, Debug, PartialEq, Eq)]
pub struct Refusal {
    pub number: u64,
    pub place: u64,
}

pub const BAD_SIZE: u64 = 1;
pub const BAD_TRAILER: u64 = 2;
pub const MALFORMED: u64 = 3;
pub const OUT_OF_RANGE: u64 = 4;
pub const OUT_OF_ORDER: u64 = 5;
pub const WITHOUT_PARTNER: u64 = 6;
pub const BEYOND_MOST: u64 = 7;
pub const SHORT_BUFFER: u64 = 8;
pub const NO_VALID_CHAIN: u64 = 9;
pub const NO_CHAIN: u64 = 10;
pub const BREAKS_MODEL: u64 = 11;

impl Refusal {
    pub fn new(number: u64, place: usize) -> Refusal {
        Refusal {
            number,
            place: place as u64,
        }
    }
}

impl Reply {
    pub fn done(score: i64, count: usize) -> Reply {
        Reply {
            number: 0,
            place: 0,
            score,
            count: count as u64,
        }
    }
}

impl From<Refusal> for Reply {
    fn from(refusal: Refusal) -> Reply {
        Reply {
            number: refusal.number,
            place: refusal.place,
            score: 0,
            count: 0,
        }
    }
}

impl fmt::Display for Reply {
    fn fmt(&self, formatter: &mut fmt::Formatter) -> fmt::Result {
        write!(
            formatter,
            "{} {} {} {}",
            self.number, self.place, self.score, self.count
        )
    }
}
