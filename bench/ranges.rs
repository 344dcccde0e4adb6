// Ranges in plain Rust: a convex polygon by its corners, and whether it covers a point.
#![allow(dead_code)]

use crate::tracks::{Point, rank, turn};

// The place of the corner that comes last in order.
pub fn top_of(corners: &[Point]) -> usize {
    (0..corners.len()).max_by_key(|&i| rank(corners[i])).unwrap()
}

// By a search for the two edges that the point falls between. There are three corners or more.
pub fn by_search(corners: &[Point], top: usize, q: Point) -> bool {
    let r = rank(q);
    if r < rank(corners[0]) || r > rank(corners[top]) {
        return false;
    }
    if r == rank(corners[top]) {
        return true;
    }
    let low = corners[..=top].partition_point(|c| rank(*c) <= r) - 1;
    if turn(corners[low], corners[low + 1], q) < 0 {
        return false;
    }
    let high = top + corners[top..].partition_point(|c| rank(*c) > r) - 1;
    let after = if high + 1 < corners.len() { corners[high + 1] } else { corners[0] };
    turn(corners[high], after, q) >= 0
}
