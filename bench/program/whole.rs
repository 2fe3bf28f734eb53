//! Plain Rust for bench/program/whole: repeated results of one expression. The arguments are the name of the expression, a count, and the
//! path of a table.
use std::hint::black_box;
use std::io::Write;

const SIDE: usize = 1024;
const PLACES: usize = SIDE * SIDE;

fn numbers(places: usize) -> Vec<i64> {
    (0..places).map(|k| (k % 1000) as i64 + 1).collect()
}

fn rows(source: &[i64], width: usize, mut row: impl FnMut(&[i64], &mut Vec<i64>)) -> Vec<i64> {
    let mut made = Vec::with_capacity(PLACES);
    source.chunks(width).for_each(|line| row(line, &mut made));
    made
}

fn transposed(source: &[i64], rows: usize, columns: usize) -> Vec<i64> {
    let mut made = Vec::with_capacity(source.len());
    for column in 0..columns {
        made.extend((0..rows).map(|row| source[row * columns + column]));
    }
    made
}

fn folded_rows(source: &[i64], width: usize, step: impl Fn(i64, i64) -> Option<i64>) -> Vec<i64> {
    let mut lines = source.chunks(width).rev();
    let mut folded = lines.next().unwrap().to_vec();
    for line in lines {
        for (total, number) in folded.iter_mut().zip(line) {
            *total = step(*number, *total).unwrap();
        }
    }
    folded
}

fn scanned(source: &[i64], width: usize, step: impl Fn(i64, i64) -> Option<i64>) -> Vec<i64> {
    rows(source, width, |row, made| {
        let mut total = row[0];
        made.push(total);
        for number in &row[1..] {
            total = step(total, *number).unwrap();
            made.push(total);
        }
    })
}

fn product(left: &[i64], right: &[i64], side: usize) -> Vec<i64> {
    let mut made = vec![0i64; side * side];
    for (row, line) in left.chunks(side).zip(made.chunks_mut(side)) {
        for (number, other) in row.iter().zip(right.chunks(side)) {
            line.iter_mut().zip(other).for_each(|(total, item)| *total += number * item);
        }
    }
    made
}

fn columns(source: &[i64], width: usize, indices: &[usize]) -> Vec<i64> {
    let mut made = Vec::with_capacity(source.len() / width * indices.len());
    source.chunks(width).for_each(|row| made.extend(indices.iter().map(|index| row[index - 1])));
    made
}

fn copied(source: &[i64], counts: &[i64]) -> Vec<i64> {
    let mut made = Vec::new();
    for (number, count) in source.iter().zip(counts) {
        (0..*count).for_each(|_| made.push(*number));
    }
    made
}

/// Returns for each place the fold of the results of `each` for a row and a column, from the last pair to the first.
fn inner(square: &[i64], side: usize, fold: impl Fn(i64, i64) -> i64, each: impl Fn(i64, i64) -> i64) -> Vec<i64> {
    let mut made = Vec::with_capacity(side * side);
    for row in square.chunks(side) {
        for column in 0..side {
            let pairs = row.iter().zip(square[column..].iter().step_by(side)).rev().map(|(a, b)| each(*a, *b));
            made.push(pairs.reduce(|total, item| fold(item, total)).unwrap());
        }
    }
    made
}

fn folded(numbers: &[i64], step: impl Fn(i64, i64) -> i64) -> Vec<i64> {
    vec![numbers.iter().rev().copied().reduce(|total, number| step(number, total)).unwrap()]
}

/// Returns the alternating sums of each line, from the left. The numbers are small.
fn differences(source: &[i64], width: usize) -> Vec<i64> {
    rows(source, width, |row, made| {
        let (mut total, mut sign) = (0i64, 1);
        for number in row {
            total = number.checked_mul(sign).and_then(|it| total.checked_add(it)).unwrap();
            sign = -sign;
            made.push(total);
        }
    })
}

/// Returns the same for any numbers: each must lie between two others, or a difference from the right would exceed 64 bits.
fn far_differences(source: &[i64]) -> Vec<i64> {
    let (mut total, mut is_added, mut low, mut high) = (0i64, true, i64::MIN, i64::MAX);
    let mut made = Vec::with_capacity(source.len());
    for number in source {
        assert!(low <= *number && *number <= high);
        total = if is_added { total.checked_add(*number) } else { total.checked_sub(*number) }.unwrap();
        (low, high) = (number.saturating_sub(high), number.saturating_sub(low));
        is_added = !is_added;
        made.push(total);
    }
    made
}

/// Returns the numbers of a table in a file.
fn read(path: &str) -> Vec<i64> {
    let text = std::fs::read_to_string(path).unwrap();
    text.lines().flat_map(|line| line.split(',')).map(|field| field.parse().unwrap()).collect()
}

struct Given {
    matrix: Vec<i64>,
    half: Vec<i64>,
    order: Vec<usize>,
    bits: Vec<i64>,
    small: Vec<i64>,
    text: Vec<char>,
    other_text: Vec<char>,
    exponents: Vec<i64>,
    signs: Vec<i64>,
    greatest: Vec<i64>,
    square: Vec<i64>,
}

fn made(name: &str, given: &Given) -> Vec<i64> {
    let matrix = &given.matrix;
    let side = 32;
    match name {
        "fill" => vec![black_box(7); PLACES],
        "recycle" => black_box(&[1, 2, 3]).iter().copied().cycle().take(PLACES).collect(),
        "take" => matrix.chunks(SIDE).take(512).flat_map(|row| &row[..512]).copied().collect::<Vec<_>>(),
        "take_last" => matrix.chunks(SIDE).skip(512).flat_map(|row| &row[512..]).copied().collect::<Vec<_>>(),
        "drop" => rows(&matrix[SIDE..], SIDE, |row, made| made.extend_from_slice(&row[1..])),
        "reverse" => matrix.iter().rev().copied().collect(),
        "reverse_rows" => rows(matrix, SIDE, |row, made| made.extend(row.iter().rev())),
        "reverse_first" => matrix.chunks(SIDE).rev().flatten().copied().collect(),
        "rotate" => rows(matrix, SIDE, |row, made| {
            made.extend_from_slice(&row[3..]);
            made.extend_from_slice(&row[..3]);
        }),
        "rotate_first" => [&matrix[3 * SIDE..], &matrix[..3 * SIDE]].concat(),
        "transpose" | "transpose_by" => transposed(matrix, SIDE, SIDE),
        "transpose_four" => {
            let mut made = Vec::with_capacity(PLACES);
            for a in 0..side {
                for b in 0..side {
                    for c in 0..side {
                        made.extend((0..side).map(|d| matrix[((d * side + c) * side + b) * side + a]));
                    }
                }
            }
            made
        }
        "reverse_four" => rows(matrix, side, |row, made| made.extend(row.iter().rev())),
        "catenate" => {
            let mut made = Vec::with_capacity(PLACES);
            for (left, right) in given.half.chunks(512).zip(given.half.chunks(512)) {
                made.extend_from_slice(left);
                made.extend_from_slice(right);
            }
            made
        }
        "index" => {
            let mut made = Vec::with_capacity(PLACES);
            for row in &given.order {
                let line = &matrix[row * SIDE..][..SIDE];
                made.extend(given.order.iter().map(|column| line[*column]));
            }
            made
        }
        "index_rows" => {
            let mut made = Vec::with_capacity(PLACES);
            given.order.iter().for_each(|row| made.extend_from_slice(&matrix[row * SIDE..][..SIDE]));
            made
        }
        "index_vector" => matrix.iter().map(|index| matrix[*index as usize - 1]).collect(),
        "index_column" => matrix.chunks(SIDE).map(|row| row[black_box(2)]).collect(),
        "index_columns" => columns(matrix, SIDE, black_box(&[1, 2])),
        "index_last_of_four" => matrix.chunks(side).map(|row| row[black_box(2)]).collect(),
        "index_third_of_four" => {
            let mut made = Vec::with_capacity(side * side * side);
            matrix.chunks(side * side).for_each(|row| made.extend_from_slice(&row[black_box(2) * side..][..side]));
            made
        }
        "index_two_of_four" => {
            let (indices, mut made) = (black_box([1usize, 2]), Vec::with_capacity(4 * side * side));
            for cube in matrix.chunks(side * side * side) {
                for index in indices {
                    let square = &cube[(index - 1) * side * side..][..side * side];
                    square.chunks(side).for_each(|row| made.extend(indices.iter().map(|last| row[last - 1])));
                }
            }
            made
        }
        "replicate_mask" => copied(matrix, &given.bits),
        "replicate_compared" => copied(matrix, &matrix.iter().map(|number| (*number > 5) as i64).collect::<Vec<_>>()),
        "replicate" => rows(&given.half, 512, |row, made| made.extend(row.iter().flat_map(|item| [*item, *item]))),
        "replicate_first" => rows(&given.half, 512, |row, made| {
            made.extend_from_slice(row);
            made.extend_from_slice(row);
        }),
        "iota" => (1..=black_box(PLACES as i64)).collect(),
        "total" => {
            let copy = black_box(matrix.clone());
            vec![copy.iter().rev().try_fold(0i64, |sum, number| number.checked_add(sum)).unwrap()]
        }
        "fold_first" => folded_rows(matrix, SIDE, i64::checked_add),
        "greatest_first" => folded_rows(matrix, SIDE, |a, b| Some(a.max(b))),
        "scan" => scanned(matrix, PLACES, i64::checked_add),
        "scan_rows" => scanned(matrix, SIDE, i64::checked_add),
        "greatest_scan" => scanned(matrix, PLACES, |a, b| Some(a.max(b))),
        "decode" => {
            let mut totals = vec![0i64; 32768];
            for digits in given.bits.chunks(32768) {
                for (total, digit) in totals.iter_mut().zip(digits) {
                    *total = total.checked_mul(2).and_then(|twice| twice.checked_add(*digit)).unwrap();
                }
            }
            totals
        }
        "encode" => {
            let (radix, mut rests, mut digits) = (black_box(2i64), matrix[..32768].to_vec(), vec![0i64; PLACES]);
            for row in digits.chunks_mut(32768).rev() {
                for (digit, rest) in row.iter_mut().zip(&mut rests) {
                    *digit = rest.rem_euclid(radix);
                    *rest = rest.checked_div_euclid(radix).unwrap();
                }
            }
            digits
        }
        "product" => product(&given.small, &given.small, 512),
        "by_vector" => {
            let vector = &matrix[..SIDE];
            matrix.chunks(SIDE).map(|row| row.iter().zip(vector).map(|(a, b)| a * b).sum()).collect()
        }
        "equal_to_a_character" => given.text.iter().map(|it| (*it == black_box('a')) as i64).collect(),
        "unequal_texts" => given.text.iter().zip(&given.other_text).map(|(a, b)| (a != b) as i64).collect(),
        "numbers_and_a_character" => vec![black_box(0); PLACES],
        "quotients" => {
            let whole = |(a, b): (&i64, &i64)| if a % b == 0 { a.checked_div(*b) } else { None };
            matrix.iter().zip(black_box(matrix)).map(|pair| whole(pair).unwrap()).collect()
        }
        "powers_of_two" => given.exponents.iter().map(|it| black_box(2i64).checked_pow(*it as u32).unwrap()).collect(),
        "printed" => {
            std::io::stdout().write_all(&text_of(matrix)).unwrap();
            matrix[PLACES - 1..].to_vec()
        }
        "squares" => matrix.iter().map(|it| it.checked_pow(black_box(2)).unwrap()).collect(),
        "equal_fold" => folded(&given.bits, |a, b| (a == b) as i64),
        "unequal_fold" => folded(&given.bits, |a, b| (a != b) as i64),
        "less_fold" => folded(&given.bits, |a, b| (a < b) as i64),
        "unequal_scan" => scanned(&given.bits, PLACES, |total, bit| Some(total ^ bit)),
        "less_scan" => {
            let mut seen = 0;
            let first = |bit: &i64| {
                let only = bit & !seen;
                seen |= bit;
                only
            };
            given.bits.iter().map(first).collect()
        }
        "nand_scan" => {
            let (mut of_0, mut of_1) = (0, 1);
            let next = |bit: &i64| {
                let result = if *bit == 0 { of_0 } else { of_1 };
                (of_0, of_1) = (of_1, if *bit == 0 { of_1 } else { of_0 });
                result
            };
            given.bits.iter().map(next).collect()
        }
        "table_read" => read(&std::env::args().nth(3).unwrap()),
        "difference_scan" => differences(matrix, PLACES),
        "far_difference_scan" => far_differences(&given.greatest),
        "difference_scan_first" => {
            let mut made = Vec::with_capacity(PLACES);
            made.extend_from_slice(&matrix[..SIDE]);
            for place in SIDE..PLACES {
                let number = if place / SIDE % 2 == 0 { matrix[place] } else { -matrix[place] };
                made.push(number.checked_add(made[place - SIDE]).unwrap());
            }
            made
        }
        "product_scan" => scanned(&given.signs, PLACES, i64::checked_mul),
        "any_equal" => inner(&given.square, 256, |a, b| a | b, |a, b| (a == b) as i64),
        "all_equal" => inner(&given.square, 256, |a, b| a & b, |a, b| (a == b) as i64),
        "least_difference" => inner(&given.square, 256, i64::min, |a, b| a.checked_sub(b).unwrap()),
        _ => panic!("no such expression"),
    }
}

/// Returns the printed line of a vector; the digits are written by hand.
fn text_of(numbers: &[i64]) -> Vec<u8> {
    let mut text = Vec::new();
    for (place, number) in numbers.iter().enumerate() {
        if place > 0 {
            text.push(b' ');
        }
        if *number < 0 {
            text.extend_from_slice("¯".as_bytes());
        }
        let (mut left, mut digits, mut first) = (number.unsigned_abs(), [0; 20], 20);
        loop {
            first -= 1;
            digits[first] = b'0' + (left % 10) as u8;
            left /= 10;
            if left == 0 {
                break;
            }
        }
        text.extend_from_slice(&digits[first..]);
    }
    text.push(b'\n');
    text
}

fn main() {
    let words: Vec<String> = std::env::args().collect();
    let given = Given {
        matrix: numbers(PLACES),
        half: numbers(PLACES / 2),
        order: (0..SIDE).map(|k| k * 5 % SIDE).collect(),
        bits: (0..PLACES).map(|k| (k % 2) as i64).collect(),
        small: numbers(512 * 512),
        text: "abc".chars().cycle().take(PLACES).collect(),
        other_text: "abd".chars().cycle().take(PLACES).collect(),
        exponents: (0..PLACES).map(|k| (k % 63) as i64).collect(),
        signs: (0..PLACES).map(|k| 1 - 2 * (k % 2) as i64).collect(),
        greatest: vec![i64::MAX; PLACES],
        square: numbers(256 * 256),
    };
    let mut kept = Vec::new();
    for _ in 0..words[2].parse::<usize>().unwrap() {
        kept = black_box(made(&words[1], black_box(&given)));
    }
    println!("{}", kept.last().unwrap_or(&0).to_string().replace('-', "¯"));
}
