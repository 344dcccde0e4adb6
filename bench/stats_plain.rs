// The percent polygons of the part `percents` of crates/benches in plain Rust: the points ranked by a full
// sort, or the kept ones of each level selected, and their hull as two chains.
mod chains;
mod percents;
mod tracks;

use percents::{LEVELS, by_selection, distances, row};
use std::hint::black_box;
use std::time::Instant;
use tracks::{Point, walk};

fn by_sort(points: &[Point]) -> Vec<(usize, usize, u128)> {
    let mut ranked = distances(points);
    ranked.sort_unstable();
    let ranked: Vec<Point> = ranked.iter().map(|(_, place)| points[*place as usize]).collect();
    let kept = |level: usize| (level * points.len()).div_ceil(100);
    LEVELS.map(|level| row(ranked[..kept(level)].iter().rev().copied())).to_vec()
}

// The best time of a few rounds, in microseconds, and what the work gave.
fn best<T>(work: impl Fn() -> T) -> (u128, T) {
    let (mut least, mut found) = (u128::MAX, None);
    for _ in 0..5 {
        let start = Instant::now();
        found = Some(black_box(work()));
        least = least.min(start.elapsed().as_micros());
    }
    (least, found.unwrap())
}

fn main() {
    let points = walk();
    let (sort, rows) = best(|| by_sort(&points));
    let (selection, same) = best(|| by_selection(&points));
    assert_eq!(rows, same);
    for ((kept, corners, area), level) in rows.iter().zip(LEVELS) {
        println!("{level},{kept},{corners},{area}");
    }
    eprintln!("{sort} {selection}");
}
