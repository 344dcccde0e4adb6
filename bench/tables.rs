// Files of fixes in plain Rust, and their tables of incremental area analysis.
#![allow(dead_code)]

use crate::chains::Hull;
use crate::tracks::{LIMIT, Point};
use std::fmt::Write;

pub const HEADER: &str = "animal,second,easting,northing";

// The second, the corners and the doubled area.
pub type Row = (u64, usize, u128);

// What is known of an animal once its file was read.
pub struct Track {
    pub name: String,
    pub points: Vec<Point>,
    pub rows: Vec<Row>,
    pub hull: Hull,
}

// A file of an animal whose fixes are a minute apart.
pub fn file_of(name: &str, points: &[Point]) -> String {
    let mut text = format!("{HEADER}\n");
    for (i, p) in points.iter().enumerate() {
        writeln!(text, "{name},{},{},{}", i * 60, p.e, p.n).unwrap();
    }
    text
}

fn number(field: Option<&str>, limit: u64) -> Option<u64> {
    field?.parse().ok().filter(|n| *n <= limit)
}

// The second and the point of a record, where it passes all checks.
fn fix_of<'a>(record: &'a str, name: &mut Option<&'a str>, last: u64) -> Option<(u64, Point)> {
    let mut fields = record.split(',');
    let animal = fields.next()?;
    if *name.get_or_insert(animal) != animal || animal.is_empty() || animal.len() > 32 {
        return None;
    }
    let second = number(fields.next(), 1 << 40)?;
    let e = number(fields.next(), LIMIT as u64)? as i64;
    let n = number(fields.next(), LIMIT as u64)? as i64;
    (fields.next().is_none() && second >= last).then_some((second, Point { e, n }))
}

pub fn track_of(text: &str) -> Option<Track> {
    let mut lines = text.lines();
    if lines.next()? != HEADER {
        return None;
    }
    let (mut points, mut rows, mut hull, mut name, mut last) = (vec![], vec![], Hull::default(), None, 0);
    for line in lines {
        let (second, p) = fix_of(line, &mut name, last)?;
        hull.insert(p);
        points.push(p);
        rows.push((second, hull.corner_count(), hull.tally.area));
        last = second;
    }
    Some(Track { name: name?.to_string(), points, rows, hull })
}
