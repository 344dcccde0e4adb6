// What the program does, in plain Rust on one thread, as fast as we can write it: a peer for bench/table.py.
//
//     program_plain [--trees] [--percent LIST] [--unit UNIT] FILE ...
//
// It prints the bytes that `homerange` prints for the same words, and stops at a file that breaks a rule. It reads
// the plain form of a file alone: four columns, no quotes, a line feed at each line's end but perhaps the last.
// - A file is read in blocks of 64 KB, each gone through once, byte by byte, no line copied. A fix is put into the hull
//   and its row written as it is read; what a row says of the polygon is written anew only where a fix changed it.
// - The hull is two chains of corners in order (Andrew 1979), sorted vectors, or with `--trees` trees, which insert
//   into long chains faster. A point that the hull's core surrounds costs four comparisons.
// - The kept fixes of a level are selected, not sorted, the greatest level first and each lower one among those that
//   are selected already. Their polygon is made by sorting those outside the polygon of every 64th; that of all
//   fixes is known.
// - An overlap tries the boxes, then for each fix the box, the core, and a binary search in both chains.
// - Digits are made by hand, two at a time. All texts are made before the first is written, each at once.
// All arithmetic is exact. One thread does not read ahead, so waiting for a disk adds to its time.
//
// With the feature `csv` the crate of that name reads the fields, quoted ones too, as homerange's proved port of it does;
// all else is the same.
#![allow(unexpected_cfgs)]
#![cfg_attr(feature = "csv", allow(dead_code, unused_imports))]

use std::cmp::Reverse;
use std::collections::{BTreeSet, HashSet};
use std::fs::File;
use std::io::{Read, Write};
use std::slice::Iter;

const HEADER: [u8; 31] = *b"animal,second,easting,northing\n";
const BLOCK: usize = 1 << 16;
const FIXES: usize = 1 << 20;
const SECONDS: u64 = 1 << 40;

// In order by easting, then by northing.
#[derive(Clone, Copy, PartialEq, Eq)]
#[repr(C)]
struct Point {
    n: i32,
    e: i32,
}

impl Point {
    // Coordinates are not negative, so one number has the order of points, and is compared at once.
    fn rank(self) -> u64 {
        (self.e as u64) << 32 | self.n as u64
    }
}

impl PartialOrd for Point {
    fn partial_cmp(&self, other: &Point) -> Option<std::cmp::Ordering> {
        Some(self.cmp(other))
    }
}

impl Ord for Point {
    fn cmp(&self, other: &Point) -> std::cmp::Ordering {
        self.rank().cmp(&other.rank())
    }
}

// Twice the area of a triangle, positive where it is counterclockwise.
fn turn(a: Point, b: Point, c: Point) -> i64 {
    (b.e - a.e) as i64 * (c.n - a.n) as i64 - (b.n - a.n) as i64 * (c.e - a.e) as i64
}

// The core of a polygon: its farthest points to the south-west, south-east, north-west and north-east.
#[derive(Clone, Copy)]
struct Core([Point; 4]);

impl Core {
    fn new(p: Point) -> Core {
        Core([p; 4])
    }

    fn add(&mut self, p: Point) {
        let reaches = |p: Point| [-p.e - p.n, p.e - p.n, p.n - p.e, p.e + p.n];
        for (i, reach) in reaches(p).into_iter().enumerate() {
            if reach > reaches(self.0[i])[i] {
                self.0[i] = p;
            }
        }
    }

    // Whether each of the four lies in its own quadrant round the point, which then is covered and no corner.
    fn surrounds(&self, p: Point) -> bool {
        let [sw, se, nw, ne] = self.0;
        (p.e > sw.e.max(nw.e)) & (p.e < se.e.min(ne.e)) & (p.n > sw.n.max(se.n)) & (p.n < nw.n.min(ne.n))
    }
}

// The corners of one side of a polygon in order, from its least corner to its greatest. The southern side has the
// sign 1 and bends to the left, the northern has -1.
trait Chain: Default {
    // Adds what the point makes the doubled area greater by, and says whether the chain is another now.
    fn insert(&mut self, sign: i64, p: Point, area2: &mut i64) -> bool;
    fn count(&self) -> usize;
    fn into_sorted(self) -> Vec<Point>;
}

// Whether the chain loses its corner b where it gets the other two as neighbours, with the area that this adds.
fn dents(sign: i64, [a, b, c]: [Point; 3], area2: &mut i64) -> bool {
    let bend = sign * turn(a, b, c);
    *area2 -= bend.min(0);
    bend <= 0
}

impl Chain for Vec<Point> {
    fn insert(&mut self, sign: i64, p: Point, area2: &mut i64) -> bool {
        let place = self.partition_point(|c| *c < p);
        if place < self.len() && self[place] == p {
            return false;
        }
        if place > 0 && place < self.len() {
            let bend = sign * turn(self[place - 1], p, self[place]);
            if bend <= 0 {
                return false;
            }
            *area2 += bend;
        }
        let (mut from, mut to) = (place, place);
        while from >= 2 && dents(sign, [self[from - 2], self[from - 1], p], area2) {
            from -= 1;
        }
        while to + 1 < self.len() && dents(sign, [p, self[to], self[to + 1]], area2) {
            to += 1;
        }
        if from == to {
            self.insert(from, p);
        } else {
            self[from] = p;
            self.drain(from + 1..to);
        }
        true
    }

    fn count(&self) -> usize {
        self.len()
    }

    fn into_sorted(self) -> Vec<Point> {
        self
    }
}

impl Chain for BTreeSet<Point> {
    fn insert(&mut self, sign: i64, p: Point, area2: &mut i64) -> bool {
        let mut before = self.range(..p).rev().copied();
        let mut after = self.range(p..).copied();
        let (mut left, mut right) = (before.next(), after.next());
        if right == Some(p) {
            return false;
        }
        if let (Some(a), Some(b)) = (left, right) {
            let bend = sign * turn(a, p, b);
            if bend <= 0 {
                return false;
            }
            *area2 += bend;
        }
        let mut removed = vec![];
        while let (Some(a), Some(b)) = (before.next(), left)
            && dents(sign, [a, b, p], area2)
        {
            removed.push(b);
            left = Some(a);
        }
        while let (Some(a), Some(b)) = (right, after.next())
            && dents(sign, [p, a, b], area2)
        {
            removed.push(a);
            right = Some(b);
        }
        for c in removed {
            self.remove(&c);
        }
        self.insert(p)
    }

    fn count(&self) -> usize {
        self.len()
    }

    fn into_sorted(self) -> Vec<Point> {
        self.into_iter().collect()
    }
}

#[derive(Default)]
struct Hull<C> {
    south: C,
    north: C,
    core: Option<Core>,
    area2: i64,
}

impl<C: Chain> Hull<C> {
    // Whether the polygon is another now.
    fn insert(&mut self, p: Point) -> bool {
        if self.core.is_some_and(|core| core.surrounds(p)) {
            return false;
        }
        // Both sides, so no `||`.
        let is_other = self.south.insert(1, p, &mut self.area2) | self.north.insert(-1, p, &mut self.area2);
        if is_other {
            self.core.get_or_insert(Core::new(p)).add(p);
        }
        is_other
    }

    fn corner_count(&self) -> usize {
        (self.south.count() + self.north.count() - 2).max(1)
    }
}

// A polygon by its chains, each sorted, its core and its doubled area.
struct Range {
    south: Vec<Point>,
    north: Vec<Point>,
    core: Core,
    area2: i64,
}

impl Range {
    fn from_hull<C: Chain>(hull: Hull<C>) -> Option<Range> {
        let (south, north) = (hull.south.into_sorted(), hull.north.into_sorted());
        Some(Range { south, north, core: hull.core?, area2: hull.area2 })
    }

    // Each chain grows and shrinks at its end alone, and each corner that it loses adds the area between it and the
    // line through all points.
    fn new(mut points: Vec<Point>) -> Range {
        points.sort_unstable();
        points.dedup();
        let (mut core, mut area2) = (Core::new(points[0]), 0);
        points.iter().for_each(|p| core.add(*p));
        let [south, north] = [1, -1].map(|sign| {
            let mut chain = Vec::new();
            for &p in &points {
                while let [.., a, b] = chain[..]
                    && dents(sign, [a, b, p], &mut area2)
                {
                    chain.pop();
                }
                chain.push(p);
            }
            chain
        });
        Range { south, north, core, area2 }
    }

    // Counterclockwise from the least.
    fn corners(&self) -> impl Iterator<Item = &Point> {
        self.south.iter().chain(self.north.iter().rev().skip(1).take(self.north.len().saturating_sub(2)))
    }

    fn corner_count(&self) -> usize {
        (self.south.len() + self.north.len() - 2).max(1)
    }

    // The least and the greatest easting, and northing.
    fn extent(&self) -> [i32; 4] {
        let northings = || self.corners().map(|p| p.n);
        let (first, last) = (self.south[0], self.south[self.south.len() - 1]);
        [first.e, last.e, northings().min().unwrap(), northings().max().unwrap()]
    }

    fn covers(&self, p: Point) -> bool {
        if p < self.south[0] || p > self.south[self.south.len() - 1] {
            return false;
        }
        let is_within = |chain: &[Point], sign: i64| {
            let place = chain.partition_point(|c| *c < p);
            chain[place] == p || sign * turn(chain[place - 1], chain[place], p) >= 0
        };
        self.core.surrounds(p) || is_within(&self.south, 1) && is_within(&self.north, -1)
    }
}

// The fixes of an animal, and what they come to.
struct Track {
    name: Vec<u8>,
    points: Vec<Point>,
    rows: Vec<u8>,
    range: Range,
}

const PAIRS: [[u8; 2]; 100] = {
    let (mut pairs, mut i) = ([[0; 2]; 100], 0);
    while i < 100 {
        pairs[i] = [b'0' + i as u8 / 10, b'0' + i as u8 % 10];
        i += 1;
    }
    pairs
};

// The digits of a number, made from the last on, two at a time.
fn put_number(text: &mut Vec<u8>, mut number: u64) {
    let (mut digits, mut at) = ([0; 20], 20);
    while number >= 10 {
        at -= 2;
        digits[at..at + 2].copy_from_slice(&PAIRS[(number % 100) as usize]);
        number /= 100;
    }
    if number > 0 || at == 20 {
        at -= 1;
        digits[at] = b'0' + number as u8;
    }
    text.extend_from_slice(&digits[at..]);
}

// A comma before each number, and the line's end.
fn put_numbers(text: &mut Vec<u8>, numbers: &[u64]) {
    for &number in numbers {
        text.push(b',');
        put_number(text, number);
    }
    text.push(b'\n');
}

fn put_line(text: &mut Vec<u8>, words: &[&[u8]], numbers: &[u64]) {
    text.extend_from_slice(&words.join(&b','));
    put_numbers(text, numbers);
}

// The number that comes next, within its limit, and the byte that ends it.
fn number(bytes: &mut Iter<u8>, limit: u64, end: u8) -> Option<u64> {
    let mut value = u64::from(bytes.next()?.wrapping_sub(b'0'));
    if value > 9 {
        return None;
    }
    for byte in bytes {
        let digit = byte.wrapping_sub(b'0');
        if digit > 9 {
            return (*byte == end && value <= limit).then_some(value);
        }
        value = value * 10 + u64::from(digit);
        if value > SECONDS {
            return None;
        }
    }
    (end == b'\n' && value <= limit).then_some(value)
}

fn is_name(name: &[u8]) -> bool {
    (1..=32).contains(&name.len()) && !name.iter().any(|b| b.is_ascii_control() || *b == b'"')
}

// The name of a first record.
#[cfg(not(feature = "csv"))]
fn name_of(bytes: &[u8]) -> Option<&[u8]> {
    let name = &bytes[..bytes.iter().position(|byte| *byte == b',')?];
    is_name(name).then_some(name)
}

// What is known of an animal within its file.
struct Reading<C> {
    limit: u64,
    name: Vec<u8>,
    points: Vec<Point>,
    rows: Vec<u8>,
    hull: Hull<C>,
    last: u64,
    // How each record begins, and how a row begins and ends.
    lead: Vec<u8>,
    row: Vec<u8>,
    end: Vec<u8>,
}

impl<C: Chain> Reading<C> {
    fn new(name: &[u8], limit: u64) -> Reading<C> {
        let (name, lead, row) = (name.to_vec(), [name, b","].concat(), [b"row,", name, b","].concat());
        let (points, rows, hull, last, end) = (vec![], vec![], Hull::default(), 0, vec![]);
        Reading { limit, name, points, rows, hull, last, lead, row, end }
    }

    // Takes whole lines. None where one breaks a rule.
    #[cfg(not(feature = "csv"))]
    fn take(&mut self, lines: &[u8]) -> Option<()> {
        let mut bytes = lines.iter();
        while !bytes.as_slice().is_empty() {
            bytes = bytes.as_slice().strip_prefix(&self.lead[..])?.iter();
            let second = number(&mut bytes, SECONDS, b',').filter(|second| *second >= self.last)?;
            let e = number(&mut bytes, self.limit, b',')? as i32;
            let n = number(&mut bytes, self.limit, b'\n')? as i32;
            self.add(second, Point { n, e });
        }
        Some(())
    }

    // Takes a record of the crate csv. None where it breaks a rule.
    #[cfg(feature = "csv")]
    fn take(&mut self, record: &csv::ByteRecord) -> Option<()> {
        let field = |at: usize, limit| number(&mut record.get(at)?.iter(), limit, b'\n');
        if record.len() != 4 || record[0] != self.name[..] {
            return None;
        }
        let second = field(1, SECONDS).filter(|second| *second >= self.last)?;
        let (e, n) = (field(2, self.limit)? as i32, field(3, self.limit)? as i32);
        self.add(second, Point { n, e });
        Some(())
    }

    fn add(&mut self, second: u64, p: Point) {
        if self.hull.insert(p) {
            self.end.clear();
            put_numbers(&mut self.end, &[self.hull.corner_count() as u64, self.hull.area2 as u64]);
        }
        self.points.push(p);
        self.rows.extend_from_slice(&self.row);
        put_number(&mut self.rows, self.points.len() as u64);
        self.rows.push(b',');
        put_number(&mut self.rows, second);
        self.rows.extend_from_slice(&self.end);
        self.last = second;
    }

    fn into_track(self) -> Option<Track> {
        let Reading { name, points, rows, .. } = self;
        let range = Range::from_hull(self.hull)?;
        (points.len() <= FIXES).then_some(Track { name, points, rows, range })
    }
}

// The track of a file, its rows written, read by the crate csv. None where a record breaks a rule.
#[cfg(feature = "csv")]
fn track_of<C: Chain>(file: File, limit: u64) -> Option<Track> {
    let mut reader = csv::ReaderBuilder::new().has_headers(false).flexible(true).from_reader(file);
    let (mut record, mut reading) = (csv::ByteRecord::new(), None);
    reader.read_byte_record(&mut record).ok()?;
    let header = HEADER[..HEADER.len() - 1].split(|byte| *byte == b',');
    record.iter().eq(header).then_some(())?;
    while reader.read_byte_record(&mut record).ok()? {
        if reading.is_none() {
            let name = record.get(0).filter(|name| is_name(name))?;
            reading = Some(Reading::<C>::new(name, limit));
        }
        reading.as_mut()?.take(&record)?;
    }
    reading?.into_track()
}

// The track of a file, its rows written, read in blocks; a line that a block cuts goes to the start of the next. None
// where a line breaks a rule, or is as long as a block.
#[cfg(not(feature = "csv"))]
fn track_of<C: Chain>(mut file: File, limit: u64) -> Option<Track> {
    let mut header = [0; HEADER.len()];
    file.read_exact(&mut header).ok().filter(|_| header == HEADER)?;
    let (mut block, mut filled, mut reading) = (vec![0; BLOCK], 0, None);
    while filled < BLOCK {
        let count = file.read(&mut block[filled..]).ok()?;
        filled += count;
        let line_end = block[..filled].iter().rposition(|byte| *byte == b'\n');
        let whole = if count == 0 { filled } else { line_end.map_or(0, |place| place + 1) };
        let lines = &block[..whole];
        if reading.is_none() && whole > 0 {
            reading = Some(Reading::<C>::new(name_of(lines)?, limit));
        }
        if let Some(reading) = &mut reading {
            reading.take(lines)?;
        }
        if count == 0 {
            return reading?.into_track();
        }
        block.copy_within(whole..filled, 0);
        filled -= whole;
    }
    None
}

// Each point's squared distance from the mean, scaled to be whole, and behind it its place.
fn keys(points: &[Point]) -> Vec<u128> {
    let count = points.len() as i64;
    let (e, n) = points.iter().fold((0, 0), |(e, n), p| (e + p.e as i64, n + p.n as i64));
    let square = |x: i64| u128::from(x.unsigned_abs()) * u128::from(x.unsigned_abs());
    let distance = |p: &Point| square(count * p.e as i64 - e) + square(count * p.n as i64 - n);
    points.iter().zip(0..).map(|(p, place)| distance(p) << 20 | place).collect()
}

// The polygon of the points with these keys: of those that the polygon of a few of them leaves out, and its corners.
fn kept_range(points: &[Point], kept: &[u128]) -> Range {
    let mut outer: Vec<Point> = kept.iter().map(|key| points[*key as usize % FIXES]).collect();
    let few = Range::new(outer.iter().copied().step_by(64).collect());
    outer.retain(|p| !few.covers(*p));
    outer.extend(few.corners());
    Range::new(outer)
}

// For each level the kept fixes, and the corners and the doubled area of their polygon.
fn percents(track: &Track, levels: &[usize]) -> Vec<[u64; 3]> {
    let mut rows = vec![[0; 3]; levels.len()];
    let mut falling: Vec<usize> = (0..levels.len()).collect();
    falling.sort_by_key(|i| Reverse(levels[*i]));
    let mut keys = keys(&track.points);
    for i in falling {
        let kept = (levels[i] * track.points.len()).div_ceil(100);
        if kept < keys.len() {
            keys.select_nth_unstable(kept);
            keys.truncate(kept);
        }
        let found = (kept < track.points.len()).then(|| kept_range(&track.points, &keys));
        let range = found.as_ref().unwrap_or(&track.range);
        let (corners, area2) = (range.corner_count(), range.area2);
        rows[i] = [kept as u64, corners as u64, area2 as u64];
    }
    rows
}

// The lines of an animal before its rows, and those after them.
fn around_rows(track: &Track, levels: &[usize]) -> [Vec<u8>; 2] {
    let (name, [mut head, mut tail]) = (&track.name[..], [vec![], vec![]]);
    let [least_e, most_e, least_n, most_n] = track.range.extent().map(|x| x as u64);
    put_line(&mut head, &[b"animal", name, b"fixes"], &[track.points.len() as u64]);
    put_line(&mut head, &[b"box", name], &[least_e, least_n, most_e, most_n]);
    for (i, p) in (1..).zip(track.range.corners()) {
        put_line(&mut tail, &[b"corner", name], &[i, p.e as u64, p.n as u64]);
    }
    for (&level, [kept, corners, area2]) in levels.iter().zip(percents(track, levels)) {
        put_line(&mut tail, &[b"percent", name], &[level as u64, kept, corners, area2]);
    }
    [head, tail]
}

// How many of the points lie in the range, by the boxes of both at first.
fn overlap(points: &[Point], box_a: [i32; 4], range: &Range, box_b: [i32; 4]) -> usize {
    let [west, east, south, north] = box_b;
    if box_a[1] < west || east < box_a[0] || box_a[3] < south || north < box_a[2] {
        return 0;
    }
    let is_in_box = |p: Point| (p.e >= west) & (p.e <= east) & (p.n >= south) & (p.n <= north);
    let is_covered = |p: Point| is_in_box(p) && range.covers(p);
    points.iter().filter(|p| is_covered(**p)).count()
}

fn overlaps(tracks: &[Track]) -> Vec<u8> {
    let mut text = vec![];
    let boxes: Vec<[i32; 4]> = tracks.iter().map(|track| track.range.extent()).collect();
    for (a, box_a) in tracks.iter().zip(&boxes) {
        for (b, box_b) in tracks.iter().zip(&boxes).filter(|(b, _)| b.name != a.name) {
            let count = overlap(&a.points, *box_a, &b.range, *box_b);
            put_line(&mut text, &[b"overlap", &a.name, &b.name], &[count as u64, a.points.len() as u64]);
        }
    }
    put_line(&mut text, &[b"end"], &[tracks.len() as u64]);
    text
}

// Reads all files, and only then writes: each text as it was made, since joining them would copy the rows.
fn report<C: Chain>(files: &[String], levels: &[usize], is_fine: bool) {
    let (mut tracks, mut around, mut names) = (vec![], vec![], HashSet::new());
    for path in files {
        let track = track_of::<C>(File::open(path).unwrap(), if is_fine { 1 << 27 } else { 1 << 24 });
        let track = track.filter(|track| names.insert(track.name.clone())).expect(path);
        around.push(around_rows(&track, levels));
        tracks.push(track);
    }
    let last = overlaps(&tracks);
    let mut out = std::io::stdout().lock();
    let mut write = |text: &[u8]| out.write_all(text).unwrap();
    write(if is_fine { b"unit,dm\n" } else { b"" });
    for (track, [head, tail]) in tracks.iter().zip(&around) {
        [head, &track.rows, tail].into_iter().for_each(|text| write(text));
    }
    write(&last);
}

fn main() {
    let (mut files, mut levels, mut is_fine, mut by_trees) = (vec![], vec![50, 95, 100], false, false);
    let mut words = std::env::args().skip(1);
    while let Some(word) = words.next() {
        match word.as_str() {
            "--trees" => by_trees = true,
            "--percent" => levels = words.next().unwrap().split(',').map(|level| level.parse().unwrap()).collect(),
            "--unit" => is_fine = words.next().unwrap() == "dm",
            _ => files.push(word),
        }
    }
    let report = if by_trees { report::<BTreeSet<Point>> } else { report::<Vec<Point>> };
    report(&files, &levels, is_fine);
}
