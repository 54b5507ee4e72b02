//! Length penalties without a search.

use super::whole::{floor_below, ROUNDER};
use crate::score::points_of;
use crate::sheet::Sheet;

/// Distances are sorted into at most this many drawers of equal width.
const MOST_DRAWERS: usize = 1024;

/// A row is cut into stretches if it has so many sources for each of them.
const LONG_ROW: usize = 16;

/// A stretch of distances between two points, up to and with `until`.
#[derive(Clone, Copy)]
struct Stretch {
    until: i32,
    anchor: f64,
    slope: f64,
    /// What lies between the penalty at the anchor and the rounder.
    depth: f64,
}

impl Stretch {
    fn new(until: i32, anchor: i64, penalty: i64, slope: f64) -> Stretch {
        Stretch {
            until,
            anchor: anchor as f64,
            slope,
            depth: ROUNDER - penalty as f64,
        }
    }

    #[inline(always)]
    fn at(&self, distance: i32) -> f64 {
        let run = f64::from(distance) - self.anchor;
        floor_below(run * self.slope, self.depth)
    }
}

/// One penalty function. Each drawer knows the stretch of its least distance.
pub struct Curve {
    stretches: Vec<Stretch>,
    drawers: Vec<u16>,
    shift: u32,
}

impl Curve {
    pub fn of(sheet: &Sheet, function: u32) -> Curve {
        let stretches = stretches_of(&points_of(&sheet.points, function));
        let last_point = stretches[stretches.len() - 2].until;
        let last = last_point.min(sheet.length as i32) as usize;
        let mut shift = 0;
        while (last >> shift) + 2 > MOST_DRAWERS {
            shift += 1;
        }
        let mut drawers = vec![0; (last >> shift) + 2];
        let mut stretch = 0;
        for (number, drawer) in drawers.iter_mut().enumerate() {
            while stretches[stretch].until < (number << shift) as i32 {
                stretch += 1;
            }
            *drawer = stretch as u16;
        }
        Curve {
            stretches,
            drawers,
            shift,
        }
    }

    fn stretch_of(&self, distance: i32) -> &Stretch {
        let drawer = (distance as usize >> self.shift).min(self.drawers.len() - 1);
        let mut number = self.drawers[drawer] as usize;
        while self.stretches[number].until < distance {
            number += 1;
        }
        &self.stretches[number]
    }

    /// Takes the penalties of the steps from these rising positions to the target off the row.
    pub fn take_off(&self, row: &mut [f64], positions: &[i32], target: i32) {
        if row.len() < LONG_ROW * self.stretches.len() {
            self.take_off_one_by_one(row, positions, target);
        } else {
            self.take_off_by_stretch(row, positions, target);
        }
    }

    #[inline(never)]
    fn take_off_one_by_one(&self, row: &mut [f64], positions: &[i32], target: i32) {
        for (total, &position) in row.iter_mut().zip(positions) {
            let distance = target - position;
            *total -= self.stretch_of(distance).at(distance);
        }
    }

    #[inline(never)]
    fn take_off_by_stretch(&self, row: &mut [f64], positions: &[i32], target: i32) {
        let mut behind = row.len();
        while behind > 0 {
            let stretch = *self.stretch_of(target - positions[behind - 1]);
            let first =
                positions[..behind].partition_point(|&position| target - position > stretch.until);
            for (total, &position) in row[first..behind].iter_mut().zip(&positions[first..behind]) {
                *total -= stretch.at(target - position);
            }
            behind = first;
        }
    }
}

/// Level up to the first point, a stretch between each two, level beyond the last.
fn stretches_of(points: &[(i64, i64)]) -> Vec<Stretch> {
    let first = points[0];
    let last = points[points.len() - 1];
    let mut stretches = vec![Stretch::new(first.0 as i32, 0, first.1, 0.0)];
    for pair in points.windows(2) {
        let ((d0, p0), (d1, p1)) = (pair[0], pair[1]);
        let slope = (p1 - p0) as f64 / (d1 - d0) as f64;
        stretches.push(Stretch::new(d1 as i32, d0, p0, slope));
    }
    stretches.push(Stretch::new(i32::MAX, 0, last.1, 0.0));
    stretches
}

#[cfg(test)]
mod tests {
    use super::*;
    use crate::generate::Random;
    use crate::score::penalty;
    use crate::sheet::{Point, LARGEST_SCORE, LONGEST};

    fn some_sheet(random: &mut Random) -> Sheet {
        let farthest = random.pick(&[40, 5_000, LONGEST]);
        let mut points: Vec<Point> = (0..1 + random.below(6))
            .map(|_| Point {
                function: 1,
                distance: random.between(0, farthest) as u32,
                penalty: random.between(-LARGEST_SCORE, LARGEST_SCORE),
            })
            .collect();
        points.sort_unstable_by_key(Point::key);
        points.dedup_by_key(|point| point.key());
        Sheet {
            length: LONGEST as u32,
            points,
            ..Sheet::default()
        }
    }

    #[test]
    fn both_ways_take_off_the_penalty() {
        let mut random = Random::new(1);
        for _ in 0..300 {
            let sheet = some_sheet(&mut random);
            let farthest = random.pick(&[50, 6_000, LONGEST - 1]) as i32;
            let step = 1 + farthest / 200;
            let positions: Vec<i32> = (1..=farthest).step_by(step as usize).collect();
            for function in [1, 17] {
                let curve = Curve::of(&sheet, function);
                let expected: Vec<f64> = positions
                    .iter()
                    .map(|position| i64::from(farthest - position))
                    .map(|distance| -penalty(&sheet.points, function, distance) as f64)
                    .collect();
                let mut row = vec![0.0; positions.len()];
                curve.take_off_one_by_one(&mut row, &positions, farthest);
                assert_eq!(row, expected);
                let mut row = vec![0.0; positions.len()];
                curve.take_off_by_stretch(&mut row, &positions, farthest);
                assert_eq!(row, expected);
            }
        }
    }
}
