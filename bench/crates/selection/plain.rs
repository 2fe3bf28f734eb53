//! The same work in plain Rust: lookups by the standard library's map and set, items picked by a checked index, and runs of copies.
use std::collections::{HashMap, HashSet};
use std::hint::black_box;
use std::time::Instant;

fn numbers(seed: i64) -> Vec<i64> {
    let mut number = seed;
    (0..1000000)
        .map(|_| {
            number = number.wrapping_mul(6364136223846793005).wrapping_add(1442695040888963407);
            (number >> 33) % 2000003
        })
        .collect()
}

fn index_of(list: &[i64], sought: &[i64]) -> Vec<i64> {
    let mut places = HashMap::with_capacity(list.len());
    for (place, number) in list.iter().enumerate() {
        places.entry(*number).or_insert(place);
    }
    sought.iter().map(|number| *places.get(number).unwrap_or(&list.len()) as i64 + 1).collect()
}

fn membership(sought: &[i64], list: &[i64]) -> Vec<i64> {
    let items: HashSet<i64> = list.iter().copied().collect();
    sought.iter().map(|number| i64::from(items.contains(number))).collect()
}

fn indices() -> Vec<i64> {
    let mut number: i64 = 3;
    (0..1000000)
        .map(|_| {
            number = number.wrapping_mul(6364136223846793005).wrapping_add(1442695040888963407);
            (number >> 33).wrapping_abs() % 1000000 + 1
        })
        .collect()
}

fn index(list: &[i64], places: &[i64]) -> Vec<i64> {
    places.iter().map(|place| list[*place as usize - 1]).collect()
}

fn replicate(counts: &[i64], list: &[i64]) -> Vec<i64> {
    let mut copies = Vec::with_capacity(counts.iter().sum::<i64>() as usize);
    for (count, number) in counts.iter().zip(list) {
        copies.extend(std::iter::repeat_n(*number, *count as usize));
    }
    copies
}

fn mask() -> Vec<i64> {
    let mut number: i64 = 5;
    (0..1000000)
        .map(|_| {
            number = number.wrapping_mul(6364136223846793005).wrapping_add(1442695040888963407);
            i64::from((number >> 33) % 11 < 4)
        })
        .collect()
}

fn columns(matrix: &[i64], width: usize, indices: &[usize]) -> Vec<i64> {
    let mut made = Vec::with_capacity(matrix.len() / width * indices.len());
    matrix.chunks(width).for_each(|row| made.extend(indices.iter().map(|index| row[index - 1])));
    made
}

fn index_of_four(four: &[i64], indices: &[usize]) -> Vec<i64> {
    let mut made = Vec::with_capacity(32 * 32 * indices.len() * indices.len());
    for cube in four.chunks(32 * 32 * 30) {
        for index in indices {
            let square = &cube[(index - 1) * 32 * 30..][..32 * 30];
            square.chunks(30).for_each(|row| made.extend(indices.iter().map(|last| row[last - 1])));
        }
    }
    made
}

fn time(name: &str, run: impl Fn() -> Vec<i64>) {
    let mut least = u128::MAX;
    let mut end = 0;
    for _ in 0..10 {
        let start = Instant::now();
        let made = black_box(run());
        least = least.min(start.elapsed().as_nanos());
        end = made.iter().fold(0i64, |sum, number| sum.wrapping_add(*number));
    }
    println!("{name} {least} {end}");
}

fn main() {
    let list = black_box(numbers(1));
    let sought = black_box(numbers(2));
    time("index-of", || index_of(&list, &sought));
    time("membership", || membership(&sought, &list));
    let places = black_box(indices());
    let counts = black_box((0..1000000).map(|k| k % 3).collect::<Vec<i64>>());
    time("index", || index(&list, &places));
    time("replicate", || replicate(&counts, &list));
    let bits = black_box(mask());
    time("mask", || replicate(&bits, &list));
    let indices = black_box([1, 2]);
    time("column", || list.chunks(1000).map(|row| row[black_box(2)]).collect());
    time("columns", || columns(&list, 1000, &indices));
    time("index-of-four", || index_of_four(&list[..32 * 32 * 32 * 30], &indices));
}
