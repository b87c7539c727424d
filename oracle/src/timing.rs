//! Times of the oracle's plan on large sheets: reading, preparing the library, and the plain copy's `plan`.
//! The least of several runs is given, as the one that other work on the machine disturbed least.

use std::time::{Duration, Instant};

use crate::events::Settings;
use crate::generator::large::{Large, city, sheet_of_bytes, street};
use crate::generator::make_large;
use crate::judge::program::split;
use crate::judge::{reader, tape};
use crate::variants::copies;

const RUNS: usize = 15;

pub const SHEETS: [Large; 5] = [
    Large { name: "city", seed: 20_000, make: city },
    Large { name: "city", seed: 110_000, make: city },
    Large { name: "street", seed: 40_000, make: street },
    Large { name: "street", seed: 130_000, make: street },
    Large { name: "sheet of so many bytes", seed: 16_777_216, make: sheet_of_bytes },
];

fn least<T>(mut run: impl FnMut() -> T) -> (Duration, T) {
    let mut best = Duration::MAX;
    let mut last = None;
    for _ in 0..RUNS {
        let start = Instant::now();
        let result = run();
        best = best.min(start.elapsed());
        last = Some(result);
    }
    (best, last.unwrap())
}

/// A row for each sheet, in milliseconds.
pub fn run() {
    let copies = copies();
    println!("| sheet | seed | bytes | cells | tape bytes | read ms | prepare ms | plan ms |");
    println!("|---|---|---|---|---|---|---|---|");
    for large in &SHEETS {
        let input = make_large(large);
        let (query, start) = split(&input).expect("a query");
        let bytes = &input[start..];
        let (read, sheet) = least(|| reader::open(bytes).expect("a sound sheet"));
        let timed: Vec<[Duration; 2]> = (0..RUNS).map(|_| (copies.timed)(&sheet, &query)).collect();
        let [prepared, planned] = [0, 1].map(|part| timed.iter().map(|times| times[part]).min().unwrap());
        let run = (copies.instrumented)(&sheet, &query, Settings::DOCUMENT);
        let ms = |time: Duration| time.as_secs_f64() * 1e3;
        println!(
            "| {} | {} | {} | {} | {} | {:.1} | {:.1} | {:.1} |",
            large.name,
            large.seed,
            bytes.len(),
            sheet.cells.len(),
            tape::write(&run).len(),
            ms(read),
            ms(prepared),
            ms(planned)
        );
    }
}
