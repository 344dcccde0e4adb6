// The cover flags and counts of the part `lanes` of crates/benches in plain Rust, by a scan of the edges that ends
// early and by binary search. Reads the corners from standard input, and times the track that is named.
mod ranges;
mod tracks;

use ranges::{by_search, top_of};
use std::hint::black_box;
use std::time::Instant;
use tracks::{Point, cloud, read_points, turn, walk};

fn by_scan(corners: &[Point], q: Point) -> bool {
    let mut from = corners[corners.len() - 1];
    for &to in corners {
        if turn(from, to, q) < 0 {
            return false;
        }
        from = to;
    }
    true
}

fn flag(es: &[i64], ns: &[i64], out: &mut [bool], covers: impl Fn(Point) -> bool) {
    for ((flag, &e), &n) in out.iter_mut().zip(es).zip(ns) {
        *flag = covers(Point { e, n });
    }
}

fn count(es: &[i64], ns: &[i64], covers: impl Fn(Point) -> bool) -> u64 {
    es.iter().zip(ns).map(|(&e, &n)| u64::from(covers(Point { e, n }))).sum()
}

// The best time of a few rounds, in milliseconds, and what the work gave.
fn best<T>(mut work: impl FnMut() -> T) -> (f64, T) {
    let (mut least, mut found) = (f64::MAX, None);
    for _ in 0..7 {
        let start = Instant::now();
        found = Some(black_box(work()));
        least = least.min(start.elapsed().as_secs_f64() * 1e3);
    }
    (least, found.unwrap())
}

fn main() {
    let corners = read_points();
    let top = top_of(&corners);
    let is_walk = std::env::args().any(|word| word == "walk");
    let points = if is_walk { walk() } else { cloud() };
    let (es, ns): (Vec<i64>, Vec<i64>) = points.iter().map(|p| (p.e, p.n)).unzip();
    let mut out = vec![false; points.len()];
    let scan = |q| by_scan(&corners, q);
    let search = |q| by_search(&corners, top, q);
    let (flags_by_search, _) = best(|| flag(&es, &ns, &mut out, search));
    let flagged = out.iter().filter(|flag| **flag).count();
    let (counts_by_search, covered) = best(|| count(&es, &ns, search));
    assert_eq!(flagged as u64, covered);
    // A scan of very many edges would take minutes.
    let (mut flags_by_scan, mut counts_by_scan) = (f64::INFINITY, f64::INFINITY);
    if corners.len() <= 1000 {
        flags_by_scan = best(|| flag(&es, &ns, &mut out, scan)).0;
        counts_by_scan = best(|| count(&es, &ns, scan)).0;
    }
    println!("{flags_by_scan} {flags_by_search} {counts_by_scan} {counts_by_search} {covered}");
}
