//! The same formula in plain Rust: (D×2)+D, one pass for each operator, and an edit that copies the data and evaluates the whole formula, as a
//! program without kept results would. There are no other names: bench/program/names measures their cost. bench/program/cells compares an edit
//! with a sheet in plain Rust that patches too.
use std::hint::black_box;
use std::time::Instant;

fn total(numbers: &[i64]) -> Option<Vec<i64>> {
    let mut doubled = Vec::with_capacity(numbers.len());
    for number in numbers {
        doubled.push(number.checked_mul(black_box(2))?);
    }
    let mut totals = Vec::with_capacity(numbers.len());
    for (a, b) in doubled.iter().zip(numbers) {
        totals.push(a.checked_add(*b)?);
    }
    Some(totals)
}

fn main() {
    let mut numbers: Vec<i64> = (0..1000000).map(|k| k % 1000).collect();
    let mut least = u128::MAX;
    let mut last = 0;
    for _ in 0..10 {
        let start = Instant::now();
        let totals = total(black_box(&numbers)).unwrap();
        least = least.min(start.elapsed().as_nanos());
        last = *totals.last().unwrap();
    }
    println!("definition {least} {last}");
    least = u128::MAX;
    for k in 0..10 {
        let start = Instant::now();
        let mut copy = black_box(&numbers).clone();
        copy[999999] = k;
        let totals = total(black_box(&copy)).unwrap();
        numbers = copy;
        least = least.min(start.elapsed().as_nanos());
        last = *totals.last().unwrap();
    }
    println!("edit {least} {last}");
}
