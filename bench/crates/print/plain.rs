//! Writes the same texts in plain Rust.
use std::hint::black_box;
use std::time::Instant;

fn push_number(text: &mut String, number: i64) {
    if number < 0 {
        text.push('¯');
    }
    text.push_str(&number.unsigned_abs().to_string());
}

fn vector(numbers: &[i64]) -> String {
    let mut text = String::new();
    for (place, number) in numbers.iter().enumerate() {
        if place > 0 {
            text.push(' ');
        }
        push_number(&mut text, *number);
    }
    text.push('\n');
    text
}

fn width(number: i64) -> usize {
    number.unsigned_abs().to_string().len() + (number < 0) as usize
}

fn matrix(numbers: &[i64], columns: usize) -> String {
    let widths: Vec<usize> = (0..columns)
        .map(|column| numbers.iter().skip(column).step_by(columns).map(|n| width(*n)).max().unwrap_or(0))
        .collect();
    let mut text = String::new();
    for row in numbers.chunks(columns) {
        for (column, number) in row.iter().enumerate() {
            if column > 0 {
                text.push(' ');
            }
            for _ in width(*number)..widths[column] {
                text.push(' ');
            }
            push_number(&mut text, *number);
        }
        text.push('\n');
    }
    text
}

fn time(name: &str, call: impl Fn() -> String) {
    let mut least = u128::MAX;
    let mut length = 0;
    for _ in 0..10 {
        let start = Instant::now();
        let text = call();
        least = least.min(start.elapsed().as_nanos());
        length = text.len();
    }
    println!("{name} {least} {length}");
}

fn main() {
    let numbers: Vec<i64> = (0..1000000i64)
        .map(|k| if k % 3 == 0 { -(k * 7919 % 1000003) } else { k * 7919 % 1000003 })
        .collect();
    time("vector", || vector(black_box(&numbers)));
    let zeros = vec![0i64; 1000000];
    time("matrix", || matrix(black_box(&zeros), 1000));
}
