//! The twin of the program `array_timing` in plain Rust: those of its works that are no function of an array, on
//! plain vectors, with the same lines of output: the work, a number of what came out, and the least time of the
//! rounds in nanoseconds. Built by `bench/arrays`.

use std::hint::black_box;
use std::time::{Duration, Instant};

const COUNT: usize = 1_000_000;
const ROUNDS: u32 = 25;

/// Makes one result vector for two others.
fn whole(rule: impl Fn(i64, i64) -> i64, left: &[i64], right: &[i64]) -> i64 {
    let cells: Vec<i64> = left.iter().zip(right).map(|(x, y)| rule(*x, *y)).collect();
    *black_box(cells).last().unwrap()
}

fn singles() -> i64 {
    (0..COUNT as i64).fold(0, |total, number| black_box(total).saturating_add(number))
}

fn writes(written: &mut [i64]) -> i64 {
    for place in 0..written.len() {
        black_box(&mut *written)[place] = place as i64;
    }
    *written.last().unwrap()
}

fn appends() -> i64 {
    let mut grown = Vec::new();
    for number in 0..COUNT as i64 {
        black_box(&mut grown).push(number);
    }
    *grown.last().unwrap()
}

fn time(name: &str, mut work: impl FnMut() -> i64) {
    let mut outcome = 0;
    let mut least = Duration::MAX;
    for _ in 0..ROUNDS {
        let start = Instant::now();
        outcome = black_box(work());
        least = least.min(start.elapsed());
    }
    println!("{name} {outcome} {}", least.as_nanos());
}

fn main() {
    let left = vec![3; COUNT];
    let right = vec![4; COUNT];
    let mut written = vec![0; COUNT];
    time("plus", || whole(i64::saturating_add, black_box(&left), black_box(&right)));
    time("minus", || whole(i64::saturating_sub, black_box(&left), black_box(&right)));
    time("less", || whole(|x, y| i64::from(x < y), black_box(&left), black_box(&right)));
    time("and", || whole(|x, y| i64::from(x != 0 && y != 0), black_box(&left), black_box(&right)));
    time("singles", singles);
    time("writes", || writes(&mut written));
    time("appends", appends);
}
