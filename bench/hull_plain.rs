// The inserts of the part `hull` of crates/benches in plain Rust, into the same two chains: sorted vectors,
// and trees. Reads the points of the curve from standard input, and times the track and the kind of chains
// that are named.
mod chains;
mod tracks;

use chains::{Hull, Tally};
use std::collections::BTreeSet;
use std::hint::black_box;
use std::time::Instant;
use tracks::{Point, cloud, read_points, shuffle, spiral, walk};

fn insert_in_tree(is_upper: bool, chain: &mut BTreeSet<Point>, p: Point, tally: &mut Tally) {
    let mut before = chain.range(..p).rev().copied();
    let mut after = chain.range(p..).copied();
    let (mut left, mut right) = (before.next(), after.next());
    if right == Some(p) {
        return;
    }
    if let (Some(a), Some(b)) = (left, right) {
        if !tally.bulges(is_upper, a, p, b) {
            return;
        }
    }
    let mut removed = vec![];
    while let (Some(a), Some(b)) = (before.next(), left) {
        if !tally.dents(is_upper, a, b, p) {
            break;
        }
        removed.push(b);
        left = Some(a);
    }
    while let (Some(a), Some(b)) = (right, after.next()) {
        if !tally.dents(is_upper, p, a, b) {
            break;
        }
        removed.push(a);
        right = Some(b);
    }
    for c in removed {
        chain.remove(&c);
    }
    chain.insert(p);
}

fn in_vectors(points: &[Point]) -> (usize, Tally) {
    let mut hull = Hull::with_capacity(points.len());
    for &p in points {
        hull.insert(p);
    }
    (hull.corner_count(), hull.tally)
}

fn in_trees(points: &[Point]) -> (usize, Tally) {
    let (mut lower, mut upper) = (BTreeSet::new(), BTreeSet::new());
    let mut tally = Tally::default();
    for &p in points {
        insert_in_tree(false, &mut lower, p, &mut tally);
        insert_in_tree(true, &mut upper, p, &mut tally);
    }
    (lower.len() + upper.len().saturating_sub(2), tally)
}

fn main() {
    let mut curve = read_points();
    let words: Vec<String> = std::env::args().collect();
    let points = match words[1].as_str() {
        "walk" => walk(),
        "cloud" => cloud(),
        "spiral" => spiral(),
        "curve" => curve,
        "shuffled" => {
            shuffle(&mut curve);
            curve
        }
        other => panic!("no track {}", other),
    };
    let insert_all = if words[2] == "trees" { in_trees } else { in_vectors };
    let start = Instant::now();
    let (corners, tally) = black_box(insert_all(&points));
    let time = start.elapsed().as_micros();
    println!("{time} {},{corners},{},{}", points.len(), tally.area, tally.turns);
}
