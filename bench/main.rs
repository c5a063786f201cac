//! Makes the benchmark's two streams, writes them to the folder given, and times the plain decoder on them.
mod plain;

use std::{env, fs, hint::black_box, path::Path, time::Instant};

/// A dense table: numbers of the whole range at every place, from a fixed generator.
fn dense() -> Vec<i16> {
    let mut x = 0x2545_F491u32;
    (0..4096)
        .map(|_| {
            x ^= x << 13;
            x ^= x >> 17;
            x ^= x << 5;
            (x % 65_535) as i32 - 32_767
        })
        .map(|n| n as i16)
        .collect()
}

/// A sparse table: a few large numbers at the low places, and one small number in sixty-four elsewhere.
fn sparse() -> Vec<i16> {
    (0..4096i32).map(|p| if p < 16 { 20_000 - 997 * p } else if p % 64 == 5 { 40 - p / 128 } else { 0 }).map(|n| n as i16).collect()
}

fn main() {
    let folder = env::args().nth(1).expect("a folder for the streams");
    for (name, table, repeats) in [("dense", dense(), 2_000u32), ("sparse", sparse(), 4_000)] {
        let (bytes, count) = plain::stream(6, &table);
        fs::write(Path::new(&folder).join(name), &bytes).expect("writing a stream");
        let mut loaded = vec![0i16; 4096];
        let start = Instant::now();
        for _ in 0..repeats {
            plain::load(6, black_box(&bytes), black_box(count), &mut loaded).expect("a stream of a table");
        }
        let time = start.elapsed().as_nanos() / u128::from(repeats);
        assert_eq!(loaded, table);
        println!("{name} {count} {repeats} {time}");
    }
}
