// Percent polygons in plain Rust.
#![allow(dead_code)]

use crate::chains::Hull;
use crate::tracks::Point;

pub const LEVELS: [usize; 3] = [50, 95, 100];

// How many points there are, how many corners they have, and the doubled area within these.
pub fn row(points: impl ExactSizeIterator<Item = Point>) -> (usize, usize, u128) {
    let kept = points.len();
    let mut hull = Hull::default();
    for p in points {
        hull.insert(p);
    }
    (kept, hull.corner_count(), hull.tally.area)
}

// Each point's scaled squared distance from the mean, and its place.
pub fn distances(points: &[Point]) -> Vec<(u128, u32)> {
    let n = points.len() as i64;
    let (e, m) = points.iter().fold((0, 0), |(e, m), p| (e + p.e, m + p.n));
    let square = |x: i64| u128::from(x.unsigned_abs()) * u128::from(x.unsigned_abs());
    let distance = |p: &Point| square(n * p.e - e) + square(n * p.n - m);
    points.iter().zip(0..).map(|(p, place)| (distance(p), place)).collect()
}

// The rows of the levels, which rise: the kept points selected for each, the greatest first, and one hull for all.
pub fn by_selection(points: &[Point]) -> Vec<(usize, usize, u128)> {
    let kept = |level: usize| (level * points.len()).div_ceil(100);
    let mut ranked = distances(points);
    let mut cut = points.len();
    for level in LEVELS.into_iter().rev().filter(|level| kept(*level) < points.len()) {
        ranked[..cut].select_nth_unstable(kept(level));
        cut = kept(level);
    }
    let (mut hull, mut done) = (Hull::default(), 0);
    LEVELS
        .map(|level| {
            for (_, place) in ranked[done..kept(level)].iter().rev() {
                hull.insert(points[*place as usize]);
            }
            done = kept(level);
            (done, hull.corner_count(), hull.tally.area)
        })
        .to_vec()
}
