//! The same numbers in a list, added from the right with checks: all numbers, each of 1024 rows, and each of 1024 columns, row after row from
//! the last. Also their greatest and their product.
use std::hint::black_box;
use std::time::Instant;

const RUNS: usize = 20;

fn numbers(places: usize) -> Vec<i64> {
    let mut number: i64 = 5;
    let next = |_| {
        number = number.wrapping_mul(6364136223846793005).wrapping_add(1442695040888963407);
        (number >> 33) % 1000
    };
    (0..places).map(next).collect()
}

fn sum(numbers: &[i64]) -> i64 {
    numbers.iter().rev().try_fold(0i64, |sum, number| number.checked_add(sum)).unwrap()
}

fn greatest(numbers: &[i64]) -> i64 {
    numbers.iter().rev().copied().max().unwrap()
}

/// Returns 0 beyond 64 bits.
fn product(numbers: &[i64]) -> i64 {
    numbers.iter().rev().try_fold(1i64, |product, number| number.checked_mul(product)).unwrap_or(0)
}

fn total_of_rows(numbers: &[i64]) -> i64 {
    numbers.chunks(1024).map(sum).sum()
}

fn total_of_columns(numbers: &[i64]) -> i64 {
    let mut totals = vec![0i64; 1024];
    for row in numbers.chunks(1024).rev() {
        for (total, number) in totals.iter_mut().zip(row) {
            *total = number.checked_add(*total).unwrap();
        }
    }
    totals.iter().sum()
}

fn time(name: &str, numbers: &[i64], total: fn(&[i64]) -> i64) {
    let (mut least, mut end) = (u128::MAX, 0);
    for _ in 0..RUNS {
        let start = Instant::now();
        let copy = black_box(numbers).to_vec();
        end = total(black_box(&copy));
        least = least.min(start.elapsed().as_nanos());
    }
    println!("{name} {least} {end}");
}

fn main() {
    let row = numbers(1048576);
    time("building", &row, sum);
    time("greatest", &row, greatest);
    time("product", &row, product);
    time("rows", &row, total_of_rows);
    time("columns", &row, total_of_columns);
}
