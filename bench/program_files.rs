// Makes the files that the scripts of bench time programs with. With `tracks FOLDER`: walk, scattered and growing, the
// walk cut into eight parts, and into a herd of 64. With `curve FOLDER NAME`: the curve whose corners are on standard
// input, counterclockwise, the same shuffled, and falling, from the greatest corner in order to the least.
mod chains;
mod tables;
mod tracks;

use std::cmp::Reverse;
use std::fs;
use tables::file_of;
use tracks::{Point, cloud, read_points, shuffle, spiral, walk};

fn write(folder: &str, name: &str, points: &[Point]) {
    fs::write(format!("{folder}/{name}.csv"), file_of(name, points)).unwrap();
}

fn write_parts(folder: &str, name: &str, points: &[Point], count: usize) {
    for (i, part) in points.chunks(points.len() / count).enumerate() {
        write(folder, &format!("{name}{i}"), part);
    }
}

fn write_curve(folder: &str, name: &str, mut points: Vec<Point>) {
    write(folder, name, &points);
    shuffle(&mut points);
    write(folder, &format!("{name}-shuffled"), &points);
    points.sort_by_key(|p| Reverse(*p));
    write(folder, &format!("{name}-falling"), &points);
}

fn write_tracks(folder: &str) {
    let walk = walk();
    write(folder, "walk", &walk);
    write(folder, "scattered", &cloud());
    write(folder, "growing", &spiral());
    write_parts(folder, "part", &walk, 8);
    write_parts(folder, "herd", &walk, 64);
}

fn main() {
    let words: Vec<String> = std::env::args().skip(1).collect();
    match words.iter().map(String::as_str).collect::<Vec<_>>()[..] {
        ["tracks", folder] => write_tracks(folder),
        ["curve", folder, name] => write_curve(folder, name, read_points()),
        _ => panic!("tracks FOLDER, or curve FOLDER NAME"),
    }
}
