//! Makes the hardware vectors of `floats_vectors`: `vectors fused|narrow|count SEED LINES`.
//!
//! The answers are the processor's: the fma instruction (this program refuses to be built without it),
//! cvtsd2ss for `as f32`, and the compiler's conversion of a u64. Inputs are drawn by `floats_bench`'s
//! weights, the kinds in turn. A NaN stands as 7ff8000000000000 or 7fc00000.

#[cfg(not(target_feature = "fma"))]
compile_error!("build with RUSTFLAGS=\"-C target-feature=+fma\": the answers are the instruction's");

use floats_bench::{pattern32, pattern64, to_count, to_narrow, triple, Random, KINDS};
use std::hint::black_box;

fn main() {
    let words: Vec<String> = std::env::args().skip(1).collect();
    let [operation, seed, lines] = &words[..] else { panic!("vectors fused|narrow|count SEED LINES") };
    let (seed, lines): (u64, usize) = (seed.parse().unwrap(), lines.parse().unwrap());
    println!("# Made by bench/floats/vectors {operation} {seed} {lines}: the answers are an x86-64 processor's.");
    let mut random = Random::new(seed);
    for i in 0..lines {
        match operation.as_str() {
            "fused" => {
                let (x, y, z) = triple(&mut random, KINDS[i % KINDS.len()].0);
                let answer = black_box(x).mul_add(black_box(y), black_box(z));
                println!("{:016x} {:016x} {:016x} {:016x}", pattern64(x), pattern64(y), pattern64(z), pattern64(answer));
            }
            "narrow" => {
                let x = to_narrow(&mut random);
                println!("{:016x} {:08x}", pattern64(x), pattern32(black_box(x) as f32));
            }
            "count" => {
                let n = to_count(&mut random);
                println!("{n:016x} {:08x}", pattern32(black_box(n) as f32));
            }
            other => panic!("no operation {other}"),
        }
    }
}
