//! The same functions as plain checked loops, timed in the same way.
use std::convert::TryFrom;
use std::hint::black_box;
use std::time::Instant;

fn plus(left: &[i64], right: &[i64]) -> Option<Vec<i64>> {
    let mut results = Vec::with_capacity(left.len());
    for (a, b) in left.iter().zip(right) {
        results.push(a.checked_add(*b)?);
    }
    Some(results)
}

fn times(left: &[i64], right: i64) -> Option<Vec<i64>> {
    let mut results = Vec::with_capacity(left.len());
    for a in left {
        results.push(a.checked_mul(right)?);
    }
    Some(results)
}

fn less_or_equal(left: &[i64], right: &[i64]) -> Option<Vec<i64>> {
    let mut results = Vec::with_capacity(left.len());
    for (a, b) in left.iter().zip(right) {
        results.push((a <= b) as i64);
    }
    Some(results)
}

fn divide(left: &[i64], right: &[i64]) -> Option<Vec<i64>> {
    let mut results = Vec::with_capacity(left.len());
    for (a, b) in left.iter().zip(right) {
        let (a, b) = (*a, *b);
        results.push(match b {
            0 if a == 0 => 1,
            0 => return None,
            _ if a.checked_rem(b).unwrap_or(0) != 0 => return None,
            _ => a.checked_div(b)?,
        });
    }
    Some(results)
}

fn powers(base: i64, exponents: &[i64]) -> Option<Vec<i64>> {
    let mut results = Vec::with_capacity(exponents.len());
    for exponent in exponents {
        results.push(base.checked_pow(u32::try_from(*exponent).ok()?)?);
    }
    Some(results)
}

fn squares(numbers: &[i64], exponent: i64) -> Option<Vec<i64>> {
    let exponent = u32::try_from(exponent).ok()?;
    let mut results = Vec::with_capacity(numbers.len());
    for number in numbers {
        results.push(number.checked_pow(exponent)?);
    }
    Some(results)
}

fn equal_letter(letter: char, text: &[char]) -> Option<Vec<i64>> {
    Some(text.iter().map(|each| (*each == letter) as i64).collect())
}

fn unequal_letters(left: &[char], right: &[char]) -> Option<Vec<i64>> {
    Some(left.iter().zip(right).map(|(a, b)| (a != b) as i64).collect())
}

fn time(name: &str, call: impl Fn() -> Option<Vec<i64>>) {
    let mut least = u128::MAX;
    let mut sum = 0i64;
    for _ in 0..30 {
        let start = Instant::now();
        let result = call();
        least = least.min(start.elapsed().as_nanos());
        if let Some(numbers) = result {
            sum = sum.wrapping_add(*numbers.last().unwrap_or(&0));
        }
    }
    println!("{name} {least} {sum}");
}

fn main() {
    let vector: Vec<i64> = (0..1000000).map(|k| k % 1000).collect();
    let other = vector.clone();
    let two = black_box(2);
    time("plus", || plus(black_box(&vector), black_box(&other)));
    time("times_two", || times(black_box(&vector), two));
    time("less_or_equal", || less_or_equal(black_box(&vector), black_box(&other)));
    let some: Vec<i64> = (0..1000000).map(|k| (k % 10).max(1)).collect();
    let exponents: Vec<i64> = (0..1000000).map(|k| k % 10).collect();
    time("divide", || divide(black_box(&some), black_box(&some)));
    time("powers_of_two", || powers(two, black_box(&exponents)));
    time("squares", || squares(black_box(&vector), two));
    let text: Vec<char> = (0..1000000u32).map(|k| char::from(b'a' + (k % 8) as u8)).collect();
    let others = text.clone();
    let letter = black_box('h');
    time("equal_letter", || equal_letter(letter, black_box(&text)));
    time("unequal_letters", || unequal_letters(black_box(&text), black_box(&others)));
    time("number_as_letter", || Some(vec![black_box(0); black_box(&text).len()]));
}
