//! Times the validation of 16 MiB sheets, alone, with the filling of a finder and with the comparison of one, against the
//! sum of their bytes, and then the look-up without a finder, in one run: each round takes every measurement once, one after
//! the other, and the least and the middle time of each are printed. Compiled with `--cfg against`, it races two libraries
//! instead, which take turns at each call.

use std::time::Instant;

mod sheets;

#[cfg(against)]
extern crate former;
extern crate library;

use sheets::{LISTED, Sheet};

/// The calls of one library.
struct Library {
    check: fn(&[u8]) -> (u32, usize),
    open: fn(&[u8], &mut [u32]) -> usize,
    compare: fn(&[u8], &[u32]) -> u32,
    plan: fn(&[u8], u32, u32) -> (u32, usize),
}

macro_rules! library {
    ($name:ident) => {
        Library { check: $name::check, open: $name::open, compare: $name::compare, plan: $name::plan }
    };
}

// ---- what is measured

/// A measurement, which asserts that the answer is the expected one.
type Call = fn(&Library, &mut Sheet);

const CHECK: Call = |library, sheet| assert_eq!((library.check)(&sheet.bytes), (0, 0), "{}", sheet.name);
const OPEN: Call = |library, sheet| assert!((library.open)(&sheet.bytes, &mut sheet.finder) > 0);
const COMPARE: Call = |library, sheet| assert_eq!((library.compare)(&sheet.bytes, &sheet.finder), 10, "{}", sheet.name);

/// What a plan of a sheet whose root stands last takes, and what it takes up to its first look-up: depth 49 is refused after
/// questions 1 to 7.
const PLAN: Call = |library, sheet| assert_eq!((library.plan)(&sheet.bytes, sheet.root, 1), (0, 26 * LISTED + 62), "{}", sheet.name);
const REFUSED: Call = |library, sheet| assert_eq!((library.plan)(&sheet.bytes, sheet.root, 49).0, 10, "{}", sheet.name);

/// The least and the middle of some times, in milliseconds.
#[derive(Clone, Copy)]
struct Time {
    least: f64,
    middle: f64,
}

impl Time {
    fn of(mut times: Vec<f64>) -> Self {
        times.sort_by(f64::total_cmp);
        Self { least: times[0], middle: times[times.len() / 2] }
    }

    /// Each of the two by a function.
    fn with(self, other: Self, by: fn(f64, f64) -> f64) -> Self {
        Self { least: by(self.least, other.least), middle: by(self.middle, other.middle) }
    }
}

/// The times of each call, by library. Of two libraries each goes first in every other round.
fn measure<const L: usize, const C: usize>(
    libraries: &[Library; L],
    calls: [Call; C],
    sheet: &mut Sheet,
    rounds: usize,
) -> [[Time; L]; C] {
    let mut times = [(); C].map(|_| [(); L].map(|_| Vec::new()));
    for round in 0..rounds {
        for (call, times) in calls.iter().zip(&mut times) {
            for turn in 0..L {
                let which = (round + turn) % L;
                let start = Instant::now();
                call(&libraries[which], sheet);
                times[which].push(start.elapsed().as_secs_f64() * 1e3);
            }
        }
    }
    times.map(|of_call| of_call.map(Time::of))
}

/// Measures a plan and what it takes up to its first look-up; the difference.
fn look_up<const L: usize>(libraries: &[Library; L], sheet: &mut Sheet, rounds: usize) -> [Time; L] {
    let [refused, plan] = measure(libraries, [REFUSED, PLAN], sheet, rounds);
    std::array::from_fn(|which| plan[which].with(refused[which], |whole, part| whole - part))
}

// ---- one library

#[cfg(not(against))]
mod table {
    use super::*;
    use sheets::{MOST, filled, text};
    use std::hint::black_box;

    extern crate plain;
    extern crate vector;

    const SUM: Call = |_, sheet| {
        black_box(plain::sum(black_box(&sheet.bytes)));
    };
    const VECTOR_SUM: Call = |_, sheet| {
        black_box(vector::sum(black_box(&sheet.bytes)));
    };

    /// How many records the look-ups of a plan pass: those before the root, and for each text that it lists those before the last text.
    fn passed(records: usize) -> usize {
        records - 1 + LISTED * (records - 2)
    }

    /// Two sheets that no program with a stack of 8 MB can hold: 16,777,216 bytes, and one more.
    fn try_limits() {
        let mut most = filled(MOST, Vec::new(), |n| text(n, 0));
        let missing = MOST - most.len();
        most.extend_from_slice(&vec![0; missing]);
        let cut = most.len() - missing;
        let mut whole = filled(MOST, text(0, missing), |n| text(n, 0));
        assert_eq!(library::check(&most), (2, cut));
        assert_eq!((whole.len(), library::check(&whole)), (MOST, (0, 0)));
        whole.push(0);
        assert_eq!(library::check(&whole), (1, 0));
        println!("16,777,216 bytes are sound, 16,777,217 bytes are refused with 1 0, and a last record cut short with 2 {cut}\n");
    }

    pub fn print(rounds: usize) {
        try_limits();
        let libraries = [library!(library)];
        println!("{:<30} {:>9} {:>8}  {:>17} {:>17} {:>17} {:>17} {:>17}  {:>6} {:>6}", "milliseconds, least / middle", "bytes", "records", "validation", "opening", "with a finder", "sum at -O", "sum with vectors", "/ -O", "/ vec.");
        for mut sheet in sheets::all() {
            let records = library::open(&sheet.bytes, &mut sheet.finder);
            let times = measure(&libraries, [CHECK, OPEN, COMPARE, SUM, VECTOR_SUM], &mut sheet, rounds);
            print!("{:<30} {:>9} {records:>8} ", sheet.name, sheet.bytes.len());
            for [time] in times {
                print!(" {:>8.2} {:>8.2}", time.least, time.middle);
            }
            let [[check], _, _, [sum], [vector_sum]] = times;
            println!("  {:>6.2} {:>6.2}", check.least / sum.least, check.least / vector_sum.least);
        }
        println!("\n{} look-ups without a finder, of the last record and of the last but one: a plan less its questions", 1 + LISTED);
        println!("{:<30} {:>9} {:>8}  {:>17} {:>17}", "least / middle", "bytes", "records", "milliseconds", "ns a record");
        for mut sheet in sheets::with_the_root_last() {
            let records = library::open(&sheet.bytes, &mut sheet.finder);
            let [time] = look_up(&libraries, &mut sheet, rounds);
            let nanoseconds = |milliseconds| milliseconds * 1e6 / passed(records) as f64;
            println!("{:<30} {:>9} {records:>8}  {:>8.2} {:>8.2} {:>8.2} {:>8.2}", sheet.name, sheet.bytes.len(), time.least, time.middle, nanoseconds(time.least), nanoseconds(time.middle));
        }
    }
}

// ---- two libraries

#[cfg(against)]
mod table {
    use super::*;

    fn print_race(sheet: &str, call: &str, [former, now]: [Time; 2]) {
        let ratio = now.with(former, |now, former| now / former);
        print!("{sheet:<30} {call:<14}");
        for time in [former, now, ratio] {
            print!(" {:>8.3} {:>8.3}", time.least, time.middle);
        }
        println!();
    }

    pub fn print(rounds: usize) {
        let libraries = [library!(former), library!(library)];
        println!("{:<30} {:<14} {:>17} {:>17} {:>17}", "milliseconds, least / middle", "", "former", "at hand", "at hand / former");
        for mut sheet in sheets::all() {
            library::open(&sheet.bytes, &mut sheet.finder);
            let times = measure(&libraries, [CHECK, OPEN, COMPARE], &mut sheet, rounds);
            for (call, times) in ["validation", "opening", "with a finder"].into_iter().zip(times) {
                print_race(sheet.name, call, times);
            }
        }
        for mut sheet in sheets::with_the_root_last() {
            print_race(sheet.name, "look-up", look_up(&libraries, &mut sheet, rounds));
        }
    }
}

fn main() {
    table::print(std::env::args().nth(1).map_or(31, |word| word.parse().unwrap()));
}
