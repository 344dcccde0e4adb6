// A hull in plain Rust as two chains of corners in rising order, sorted vectors that are changed in place
// (Andrew 1979).
#![allow(dead_code)]

use crate::tracks::{Point, rank, turn};

// How often `turn` was evaluated, and the doubled area.
#[derive(Default)]
pub struct Tally {
    pub turns: u64,
    pub area: u128,
}

impl Tally {
    // `turn`, positive where the points bend the way of a chain.
    fn bend(&mut self, is_upper: bool, a: Point, b: Point, c: Point) -> i64 {
        self.turns += 1;
        if is_upper { -turn(a, b, c) } else { turn(a, b, c) }
    }

    pub fn bulges(&mut self, is_upper: bool, a: Point, b: Point, c: Point) -> bool {
        let bend = self.bend(is_upper, a, b, c);
        if bend > 0 {
            self.area += u128::from(bend.unsigned_abs());
        }
        bend > 0
    }

    pub fn dents(&mut self, is_upper: bool, a: Point, b: Point, c: Point) -> bool {
        let bend = self.bend(is_upper, a, b, c);
        if bend <= 0 {
            self.area += u128::from(bend.unsigned_abs());
        }
        bend <= 0
    }
}

fn insert(is_upper: bool, chain: &mut Vec<Point>, p: Point, tally: &mut Tally) {
    let place = chain.partition_point(|c| rank(*c) < rank(p));
    if place < chain.len()
        && (chain[place] == p
            || place > 0 && !tally.bulges(is_upper, chain[place - 1], p, chain[place]))
    {
        return;
    }
    let (mut from, mut to) = (place, place);
    while from >= 2 && tally.dents(is_upper, chain[from - 2], chain[from - 1], p) {
        from -= 1;
    }
    while to + 1 < chain.len() && tally.dents(is_upper, p, chain[to], chain[to + 1]) {
        to += 1;
    }
    if from == to {
        chain.insert(from, p);
    } else {
        chain[from] = p;
        chain.drain(from + 1..to);
    }
}

#[derive(Default)]
pub struct Hull {
    lower: Vec<Point>,
    upper: Vec<Point>,
    pub tally: Tally,
}

impl Hull {
    pub fn with_capacity(count: usize) -> Hull {
        Hull {
            lower: Vec::with_capacity(count),
            upper: Vec::with_capacity(count),
            tally: Tally::default(),
        }
    }

    pub fn insert(&mut self, p: Point) {
        insert(false, &mut self.lower, p, &mut self.tally);
        insert(true, &mut self.upper, p, &mut self.tally);
    }

    // Counterclockwise from the least.
    pub fn corners(&self) -> Vec<Point> {
        let back = self.upper.iter().rev().skip(1).take(self.upper.len().saturating_sub(2));
        self.lower.iter().chain(back).copied().collect()
    }

    pub fn corner_count(&self) -> usize {
        match self.lower.len() + self.upper.len() {
            0 => 0,
            2 => 1,
            both => both - 2,
        }
    }
}
