//! Whole numbers in floating point.
//!
//! Every score, sum and product here is a whole number below 2^53, which `f64` holds exactly and
//! on which the processor works several at a time. Only quotients are inexact, and they are floored
//! with a margin that is wider than their error and narrower than the gap to the next quotient.

/// Adding this number leaves no room for a fraction, so it rounds to the nearest whole number.
pub const ROUNDER: f64 = 6_755_399_441_055_744.0;

/// Half of the least gap between quotients whose divisor is at most 4,000,000.
const MARGIN: f64 = 1.0 / 8_388_608.0;

/// The floor of a quotient of at most 200,000,000 whose divisor is at most 4,000,000.
#[inline(always)]
pub fn floor(quotient: f64) -> f64 {
    floor_below(quotient, ROUNDER)
}

/// That floor and what lies between the depth and the rounder, in one.
#[inline(always)]
pub fn floor_below(quotient: f64, depth: f64) -> f64 {
    quotient - (0.5 - MARGIN) + ROUNDER - depth
}

/// The floor of a thousandth of a whole number.
#[inline(always)]
pub fn floor_of_thousandth(value: f64) -> f64 {
    (value - 499.5) * 0.001 + ROUNDER - ROUNDER
}

#[inline(always)]
pub fn larger(one: f64, other: f64) -> f64 {
    if one > other {
        one
    } else {
        other
    }
}

#[cfg(test)]
mod tests {
    use super::*;
    use crate::score::floor_quotient;

    #[test]
    fn floors_next_to_whole_quotients() {
        for divisor in [1, 2, 3, 7, 999_983, 3_999_999, 4_000_000_i64] {
            for quotient in [
                -199_999_999,
                -10_000_000,
                -3,
                -1,
                0,
                1,
                9_999_999,
                199_999_999_i64,
            ] {
                for near in [-2, -1, 0, 1, 2] {
                    let number = quotient * divisor + near;
                    let inverse = 1.0 / divisor as f64;
                    let exact = floor_quotient(number, divisor) as f64;
                    assert_eq!(floor(number as f64 * inverse), exact);
                }
            }
        }
    }

    #[test]
    fn floors_next_to_whole_thousandths() {
        for thousands in [
            -10_000_000_000,
            -7,
            -1,
            0,
            1,
            12_345_678,
            10_000_000_000_i64,
        ] {
            for near in [-1, 0, 1, 499, 500, 501, 999] {
                let number = thousands * 1000 + near;
                let exact = floor_quotient(number, 1000) as f64;
                assert_eq!(floor_of_thousandth(number as f64), exact);
            }
        }
    }
}
