//! The same work in plain Rust: checked loops over slices.
use std::hint::black_box;
use std::time::Instant;

fn numbers(places: usize) -> Vec<i64> {
    let mut number: i64 = 5;
    (0..places)
        .map(|_| {
            number = number.wrapping_mul(6364136223846793005).wrapping_add(1442695040888963407);
            (number >> 33) % 1000
        })
        .collect()
}

/// Returns the total from the last number to the first.
fn total(numbers: impl DoubleEndedIterator<Item = i64>) -> Option<i64> {
    numbers.rev().try_fold(0i64, |sum, number| number.checked_add(sum))
}

fn sum(numbers: &[i64]) -> Option<Vec<i64>> {
    Some(vec![total(numbers.iter().copied())?])
}

fn sums_of_rows(numbers: &[i64], columns: usize) -> Option<Vec<i64>> {
    numbers.chunks_exact(columns).map(|row| total(row.iter().copied())).collect()
}

/// Adds row after row to the totals, the last row first.
fn sums_of_columns(numbers: &[i64], columns: usize) -> Option<Vec<i64>> {
    let mut totals = vec![0i64; columns];
    for row in numbers.chunks_exact(columns).rev() {
        for (total, number) in totals.iter_mut().zip(row) {
            *total = number.checked_add(*total)?;
        }
    }
    Some(totals)
}

fn running_sum(numbers: &[i64]) -> Option<Vec<i64>> {
    let mut sum = 0i64;
    let mut sums = Vec::with_capacity(numbers.len());
    for number in numbers {
        sum = sum.checked_add(*number)?;
        sums.push(sum);
    }
    Some(sums)
}

fn running_maximum(numbers: &[i64]) -> Option<Vec<i64>> {
    let mut greatest = i64::MIN;
    let mut maxima = Vec::with_capacity(numbers.len());
    for number in numbers {
        greatest = greatest.max(*number);
        maxima.push(greatest);
    }
    Some(maxima)
}

/// Returns `x1 - (x2 - (.. xk))` for each k, by alternating sums.
fn running_difference(numbers: &[i64]) -> Option<Vec<i64>> {
    let (mut total, mut sign) = (0i64, 1i64);
    let mut totals = Vec::with_capacity(numbers.len());
    for number in numbers {
        total = number.checked_mul(sign).and_then(|it| total.checked_add(it))?;
        sign = -sign;
        totals.push(total);
    }
    Some(totals)
}

/// Returns the same for each column, row after row.
fn running_differences_of_columns(numbers: &[i64], columns: usize) -> Option<Vec<i64>> {
    let mut totals = Vec::with_capacity(numbers.len());
    for (row, line) in numbers.chunks_exact(columns).enumerate() {
        for (column, number) in line.iter().enumerate() {
            let before = if row == 0 { 0 } else { totals[(row - 1) * columns + column] };
            totals.push(if row % 2 == 0 { number.checked_add(before)? } else { i64::checked_sub(before, *number)? });
        }
    }
    Some(totals)
}

fn running_product(numbers: &[i64]) -> Option<Vec<i64>> {
    let mut product = 1i64;
    let mut products = Vec::with_capacity(numbers.len());
    for number in numbers {
        product = product.checked_mul(*number)?;
        products.push(product);
    }
    Some(products)
}

fn matrix_product(left: &[i64], right: &[i64], axis: usize) -> Option<Vec<i64>> {
    let mut product = Vec::with_capacity(axis * axis);
    for row in left.chunks_exact(axis) {
        for column in 0..axis {
            let mut sum = 0i64;
            for (k, factor) in row.iter().enumerate().rev() {
                sum = factor.checked_mul(right[k * axis + column])?.checked_add(sum)?;
            }
            product.push(sum);
        }
    }
    Some(product)
}

/// Returns for each row and column the results of a function for their numbers, folded from the last to the first.
fn product_by(
    left: &[i64],
    right: &[i64],
    axis: usize,
    each: impl Fn(i64, i64) -> i64,
    fold: impl Fn(i64, i64) -> i64,
) -> Option<Vec<i64>> {
    let mut product = Vec::with_capacity(axis * axis);
    for row in left.chunks_exact(axis) {
        for column in 0..axis {
            let mut result = each(row[axis - 1], right[(axis - 1) * axis + column]);
            for k in (0..axis - 1).rev() {
                result = fold(each(row[k], right[k * axis + column]), result);
            }
            product.push(result);
        }
    }
    Some(product)
}

fn matrix_by_vector(matrix: &[i64], vector: &[i64]) -> Option<Vec<i64>> {
    let mut product = Vec::with_capacity(vector.len());
    for row in matrix.chunks_exact(vector.len()) {
        let mut sum = 0i64;
        for (number, factor) in row.iter().zip(vector).rev() {
            sum = number.checked_mul(*factor)?.checked_add(sum)?;
        }
        product.push(sum);
    }
    Some(product)
}

fn fold(numbers: &[i64], step: impl Fn(i64, i64) -> i64) -> Option<Vec<i64>> {
    let (last, front) = numbers.split_last()?;
    Some(vec![front.iter().rev().fold(*last, |result, number| step(*number, result))])
}

fn fold_columns(numbers: &[i64], columns: usize, step: impl Fn(i64, i64) -> i64) -> Option<Vec<i64>> {
    let mut folds = numbers[numbers.len() - columns..].to_vec();
    for row in numbers[..numbers.len() - columns].chunks_exact(columns).rev() {
        for (result, number) in folds.iter_mut().zip(row) {
            *result = step(*number, *result);
        }
    }
    Some(folds)
}

fn table(left: &[i64], right: &[i64]) -> Option<Vec<i64>> {
    let mut table = Vec::with_capacity(left.len() * right.len());
    for a in left {
        for b in right {
            table.push(a.checked_mul(*b)?);
        }
    }
    Some(table)
}

fn time(name: &str, call: impl Fn() -> Option<Vec<i64>>) {
    let mut least = u128::MAX;
    let mut end = 0;
    for _ in 0..10 {
        let start = Instant::now();
        let made = black_box(call());
        least = least.min(start.elapsed().as_nanos());
        end = made.iter().flatten().fold(0i64, |sum, number| sum.wrapping_add(*number));
    }
    println!("{name} {least} {end}");
}

fn main() {
    let vector = black_box(numbers(1000000));
    let side = black_box(numbers(1000));
    let matrix = black_box(numbers(1000 * 1000));
    let factor = black_box(numbers(256 * 256));
    time("sum", || sum(&vector));
    time("sums-of-rows", || sums_of_rows(&matrix, 1000));
    time("sums-of-columns", || sums_of_columns(&matrix, 1000));
    time("running-sum", || running_sum(&vector));
    time("running-maximum", || running_maximum(&vector));
    time("running-difference", || running_difference(&vector));
    time("running-differences-of-columns", || running_differences_of_columns(&matrix, 1000));
    time("matrix-product", || matrix_product(&factor, &factor, 256));
    time("table", || table(&side, &side));
    let truths: Vec<i64> = vector.iter().map(|number| number & 1).collect();
    time("equal-fold", || fold(&truths, |a, b| (a == b) as i64));
    time("unequal-fold", || fold(&truths, |a, b| (a != b) as i64));
    time("unequal-columns", || fold_columns(&matrix, 1000, |a, b| (a != b) as i64));
    let signs: Vec<i64> = vector.iter().map(|number| if number & 1 == 0 { 1 } else { -1 }).collect();
    time("running-product", || running_product(&signs));
    let equal = |a, b| (a == b) as i64;
    time("any-equal", || product_by(&factor, &factor, 256, equal, |a, b| a | b));
    time("all-equal", || product_by(&factor, &factor, 256, equal, |a, b| a & b));
    time("least-greatest", || product_by(&factor, &factor, 256, i64::max, i64::min));
    time("matrix-by-vector", || matrix_by_vector(&matrix, &side));
}
