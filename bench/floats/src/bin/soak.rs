//! Compares the proved functions with the hardware on weighted random inputs: `soak SEED MILLIONS`.
//!
//! A million is a million inputs to each of the fused operation, narrowing, counting and the absolute value. NaNs count as
//! equal; every other difference, the sign of zero included, is printed and makes the exit status 1.

use floats_bench::{f64_abs, f64_to_f32, mul_add, pattern32, pattern64, to_count, to_narrow, triple, u64_to_f32, Random, KINDS};

struct Tally {
    inputs: u64,
    differences: u64,
}

impl Tally {
    fn note(&mut self, same: bool, words: impl Fn() -> String) {
        self.inputs += 1;
        if !same {
            self.differences += 1;
            if self.differences <= 10 {
                println!("difference: {}", words());
            }
        }
    }
}

fn fused(random: &mut Random, kind: usize, tally: &mut Tally) {
    let (x, y, z) = triple(random, KINDS[kind].0);
    let (a, b) = (pattern64(x.mul_add(y, z)), pattern64(mul_add(x, y, z)));
    tally.note(a == b, || format!("fused {:016x} {:016x} {:016x}: {a:016x}, ours {b:016x}", x.to_bits(), y.to_bits(), z.to_bits()));
}

fn narrow(random: &mut Random, tally: &mut Tally) {
    let x = to_narrow(random);
    let (a, b) = (pattern32(x as f32), pattern32(f64_to_f32(x)));
    tally.note(a == b, || format!("narrow {:016x}: {a:08x}, ours {b:08x}", x.to_bits()));
}

fn count(random: &mut Random, tally: &mut Tally) {
    let n = to_count(random);
    let (a, b) = (pattern32(n as f32), pattern32(u64_to_f32(n)));
    tally.note(a == b, || format!("count {n}: {a:08x}, ours {b:08x}"));
}

fn absolute(random: &mut Random, tally: &mut Tally) {
    let x = to_narrow(random);
    let (a, b) = (pattern64(x.abs()), pattern64(f64_abs(x)));
    tally.note(a == b, || format!("absolute {:016x}: {a:016x}, ours {b:016x}", x.to_bits()));
}

fn main() {
    let words: Vec<u64> = std::env::args().skip(1).map(|w| w.parse().expect("soak SEED MILLIONS")).collect();
    let [seed, millions] = words[..] else { panic!("soak SEED MILLIONS") };
    let mut random = Random::new(seed);
    let mut tallies: Vec<Tally> = (0..KINDS.len() + 3).map(|_| Tally { inputs: 0, differences: 0 }).collect();
    for i in 0..millions * 1_000_000 {
        let kind = (i % KINDS.len() as u64) as usize;
        fused(&mut random, kind, &mut tallies[kind]);
        narrow(&mut random, &mut tallies[KINDS.len()]);
        count(&mut random, &mut tallies[KINDS.len() + 1]);
        absolute(&mut random, &mut tallies[KINDS.len() + 2]);
    }
    let names = KINDS.iter().map(|k| format!("fused, {}", k.1)).chain(["f64 as f32".into(), "u64 as f32".into(), "absolute value".into()]);
    for (name, tally) in names.zip(&tallies) {
        println!("{name:<34} {:>12} inputs, {} differences", tally.inputs, tally.differences);
    }
    let inputs: u64 = tallies.iter().map(|t| t.inputs).sum();
    let differences: u64 = tallies.iter().map(|t| t.differences).sum();
    println!("seed {seed}: {inputs} inputs, {differences} differences");
    std::process::exit(if differences == 0 { 0 } else { 1 });
}
