//! The same copies in plain Rust.
use std::hint::black_box;
use std::time::Instant;

const PLACES: usize = 1048576;

fn time(name: &str, copied: impl Fn() -> Vec<i64>) {
    let mut least = u128::MAX;
    let mut end = 0;
    for _ in 0..30 {
        let start = Instant::now();
        let copy = copied();
        least = least.min(start.elapsed().as_nanos());
        end = *copy.last().unwrap();
    }
    println!("{name} {least} {end}");
}

fn main() {
    let numbers: Vec<i64> = (0..PLACES as i64).map(|k| k % 1000).collect();
    let half = numbers[..PLACES / 2].to_vec();
    time("ravel", || black_box(&numbers).to_vec());
    time("reshape", || black_box(&numbers).to_vec());
    time("take", || black_box(&numbers)[1..].to_vec());
    time("drop", || black_box(&numbers)[1..].to_vec());
    time("catenate", || [black_box(&half).as_slice(), black_box(&half).as_slice()].concat());
}
