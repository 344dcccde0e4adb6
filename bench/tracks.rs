// The tracks of crates/bench_tracks in plain Rust.
#![allow(dead_code)]

// In order by easting, then by northing.
#[derive(Clone, Copy, PartialEq, Eq, PartialOrd, Ord)]
pub struct Point {
    pub e: i64,
    pub n: i64,
}

pub const POINTS: usize = 1 << 20;

pub const LIMIT: i64 = 1 << 24;

const MIDDLE: i64 = LIMIT / 2;

fn next(seed: &mut u64) -> u64 {
    *seed = seed.wrapping_mul(6364136223846793005).wrapping_add(1442695040888963407);
    *seed
}

pub fn cloud() -> Vec<Point> {
    let mut seed = 1;
    let mut coordinate = || (next(&mut seed) >> 40) as i64;
    (0..POINTS).map(|_| Point { e: coordinate(), n: coordinate() }).collect()
}

pub fn walk() -> Vec<Point> {
    let mut seed = 1;
    let mut step = |x: i64| (x + (next(&mut seed) >> 53) as i64 - 1024).clamp(0, LIMIT);
    let mut at = Point { e: MIDDLE, n: MIDDLE };
    (0..POINTS)
        .map(|_| {
            at = Point { e: step(at.e), n: step(at.n) };
            at
        })
        .collect()
}

pub fn spiral() -> Vec<Point> {
    let (mut x, mut y) = (2500_i64 << 20, 0_i64);
    (0..POINTS)
        .map(|_| {
            (x, y) = (x - (y >> 8), y + (x >> 8));
            Point { e: MIDDLE + (x >> 20), n: MIDDLE + (y >> 20) }
        })
        .collect()
}

pub fn shuffle(points: &mut [Point]) {
    let mut seed = 1;
    for i in (1..points.len()).rev() {
        let j = (next(&mut seed) >> 33) as usize % (i + 1);
        points.swap(i, j);
    }
}

// The points on standard input, an easting and a northing in each line.
pub fn read_points() -> Vec<Point> {
    std::io::stdin()
        .lines()
        .map(|line| {
            let line = line.unwrap();
            let (e, n) = line.split_once(',').unwrap();
            Point { e: e.parse().unwrap(), n: n.parse().unwrap() }
        })
        .collect()
}

pub fn turn(a: Point, b: Point, c: Point) -> i64 {
    (b.e - a.e) * (c.n - a.n) - (b.n - a.n) * (c.e - a.e)
}

// Points are in this order too, and it is compared faster.
pub fn rank(p: Point) -> i64 {
    p.e * (2 * LIMIT) + p.n
}
