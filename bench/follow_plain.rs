// The files of the part `follow` of crates/benches in plain Rust, read and made into tables one after the
// other on one thread. Reads the points of the curve from standard input.
mod chains;
mod tables;
mod tracks;

use std::hint::black_box;
use std::time::Instant;
use tables::{Track, file_of, track_of};
use tracks::{Point, cloud, read_points, shuffle, spiral, walk};

// Times the files, and prints their fixes and their last rows together.
fn time_files<'a>(name: &str, parts: impl Iterator<Item = &'a [Point]>) {
    let files: Vec<String> = parts.map(|part| file_of("A", part)).collect();
    let start = Instant::now();
    let all: Vec<Track> = files.iter().map(|file| track_of(file).unwrap()).collect();
    black_box(&all);
    let time = start.elapsed().as_micros();
    let fixes: usize = all.iter().map(|track| track.rows.len()).sum();
    let (corners, area2) = all
        .iter()
        .filter_map(|track| track.rows.last())
        .fold((0, 0), |(corners, area2), row| (corners + row.1, area2 + row.2));
    println!("{name},{time},{fixes},{corners},{area2}");
}

fn time_file(name: &str, points: &[Point]) {
    time_files(name, std::iter::once(points));
}

fn main() {
    let mut curve = read_points();
    time_file("walk", &walk());
    time_file("cloud", &cloud());
    time_file("spiral", &spiral());
    time_file("curve", &curve);
    shuffle(&mut curve);
    time_file("shuffled", &curve);
    time_files("files", walk().chunks(131_072));
}
