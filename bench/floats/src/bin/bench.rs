//! Times the proved fused operation against `f64::mul_add`, and prints a table.
//!
//! The two are timed in turns on the same inputs, and the least time of each counts, so that the
//! machine's other work matters little. The exit status is 1 where a bound is missed.

use floats_bench::{f64_to_f32, mul_add, to_count, to_narrow, triple, u64_to_f32, Kind, Random, KINDS};
use std::hint::black_box;
use std::time::Instant;

const INPUTS: usize = 4096;
const REPEATS: usize = 10;
const TURNS: usize = 25;

/// Nanoseconds for one call of f on each input.
fn nanoseconds<T: Copy, R>(inputs: &[T], f: impl Fn(T) -> R) -> f64 {
    let start = Instant::now();
    for _ in 0..REPEATS {
        for &input in inputs {
            black_box(f(black_box(input)));
        }
    }
    start.elapsed().as_secs_f64() * 1e9 / (REPEATS * inputs.len()) as f64
}

/// The least of several timings of each function, taken in turns.
fn compare<T: Copy, R, S>(inputs: &[T], theirs: impl Fn(T) -> R, ours: impl Fn(T) -> S) -> (f64, f64) {
    let (mut a, mut b) = (f64::INFINITY, f64::INFINITY);
    for _ in 0..TURNS {
        a = a.min(nanoseconds(inputs, &theirs));
        b = b.min(nanoseconds(inputs, &ours));
    }
    (a, b)
}

fn row(name: &str, theirs: f64, ours: f64, bound: Option<f64>) -> bool {
    let ratio = ours / theirs;
    let held = bound.is_none_or(|b| ratio <= b);
    let bound = bound.map_or("-".to_string(), |b| format!("{b}"));
    println!("{name:<28} {theirs:>9.2} {ours:>9.2} {ratio:>8.1} {bound:>7} {}", if held { "" } else { "MISSED" });
    held
}

fn main() {
    let fused = if cfg!(target_feature = "fma") { "one instruction" } else { "a call of the library function fma" };
    println!("f64::mul_add is {fused} in this build");
    println!("{:<28} {:>9} {:>9} {:>8} {:>7}", "input", "Rust, ns", "ours, ns", "ratio", "bound");
    let mut held = true;
    for (kind, name) in KINDS {
        let mut random = Random::new(2026);
        let inputs: Vec<_> = (0..INPUTS).map(|_| triple(&mut random, kind)).collect();
        let (a, b) = compare(&inputs, |(x, y, z)| x.mul_add(y, z), |(x, y, z)| mul_add(x, y, z));
        let square = kind == Kind::Square || kind == Kind::SquareFirst;
        let bound = if cfg!(target_feature = "fma") { None } else { Some(if square { 4.0 } else { 40.0 }) };
        held &= row(name, a, b, bound);
    }
    let mut random = Random::new(2026);
    let inputs: Vec<_> = (0..INPUTS).map(|_| to_narrow(&mut random)).collect();
    let (a, b) = compare(&inputs, |x| x as f32, f64_to_f32);
    row("f64 as f32", a, b, None);
    let inputs: Vec<_> = (0..INPUTS).map(|_| to_count(&mut random)).collect();
    let (a, b) = compare(&inputs, |n| n as f32, u64_to_f32);
    row("u64 as f32", a, b, None);
    std::process::exit(if held { 0 } else { 1 });
}
