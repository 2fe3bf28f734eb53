//! The same changes in plain Rust: the box of the result and its new items.
use std::hint::black_box;
use std::time::Instant;

/// New items for places of a vector, counted from 1.
struct Patch {
    first: usize,
    last: usize,
    items: Vec<i64>,
}

/// `D×2`.
fn times(_numbers: &[i64], patch: &Patch) -> Patch {
    Patch { first: patch.first, last: patch.last, items: patch.items.iter().map(|x| x.checked_mul(2).unwrap()).collect() }
}

/// `⌽D`.
fn reverse(numbers: &[i64], patch: &Patch) -> Patch {
    let beyond = numbers.len() + 1;
    Patch { first: beyond - patch.last, last: beyond - patch.first, items: patch.items.iter().rev().copied().collect() }
}

/// `D[I]`: the least interval with all places whose index lies in the patch.
fn index(numbers: &[i64], indices: &[i64], patch: &Patch) -> Patch {
    let inside = |i: &i64| patch.first <= *i as usize && *i as usize <= patch.last;
    let first = indices.iter().position(inside).unwrap();
    let last = indices.iter().rposition(inside).unwrap();
    let item = |i: &i64| if inside(i) { patch.items[*i as usize - patch.first] } else { numbers[*i as usize - 1] };
    Patch { first: first + 1, last: last + 1, items: indices[first..=last].iter().map(item).collect() }
}

/// `+/D`.
fn sum(numbers: &[i64], patch: &Patch) -> Patch {
    let add = |total: i64, x: &i64| total.checked_add(*x).unwrap();
    let before = numbers[..patch.first - 1].iter().fold(0, add);
    let total = numbers[patch.last..].iter().fold(patch.items.iter().fold(before, add), add);
    Patch { first: 1, last: 1, items: vec![total] }
}

fn time(name: &str, places: usize, first: usize, last: usize, turns: u32, changed: impl Fn(&[i64], &Patch) -> Patch) {
    let numbers = vec![1; places];
    let patch = Patch { first, last, items: vec![7; last + 1 - first] };
    let mut least = u128::MAX;
    let mut number = 0;
    for _ in 0..10 {
        let start = Instant::now();
        for _ in 0..turns {
            number = black_box(changed(black_box(&numbers), black_box(&patch))).items[0];
        }
        least = least.min(start.elapsed().as_nanos() / u128::from(turns));
    }
    println!("{name} {least} {number}");
}

fn main() {
    time("times_of_1000", 1000, 500, 500, 100000, times);
    time("times_of_1048576", 1048576, 500, 500, 100000, times);
    time("times_1000_places", 1048576, 1, 1000, 1000, times);
    time("times_all_places", 1048576, 1, 1048576, 3, times);
    time("reverse_of_1000", 1000, 500, 500, 100000, reverse);
    time("reverse_of_1048576", 1048576, 500, 500, 100000, reverse);
    let indices = [5, 500, 7];
    time("index_of_1000", 1000, 500, 500, 100000, |d, p| index(d, black_box(&indices), p));
    time("index_of_1048576", 1048576, 500, 500, 100000, |d, p| index(d, black_box(&indices), p));
    time("sum_of_1000", 1000, 500, 500, 10000, sum);
    time("sum_of_1048576", 1048576, 500, 500, 3, sum);
}
