//! Runs the planted mistakes: which stored case shows each, which memory run, which sheet of the brute force.

use std::borrow::Cow;
use std::panic::{AssertUnwindSafe, catch_unwind, set_hook, take_hook};
use std::path::Path;

use crate::answer::{Judge, PlanFn};
use crate::brute;
use crate::checksum::fnv1a;
use crate::edits::planted::{Place, Planted, Seen, all};
use crate::events::{set_fuel, switch_mistake};
use crate::generator::large::{self, Large};
use crate::generator::{FAMILIES, make, make_large};
use crate::harness;
use crate::stored::{Case, answer, is_small, read_cases, read_large};
use crate::variants::{JUDGE, copies};

/// Steps that a run with a mistake may take; a run that needs more shows the mistake by it.
const FUEL: u64 = 30_000_000;
/// So many sheets of the brute force, or cases that are called, may pass before a mistake is seen.
const SHEETS: u64 = 30_000;
const CALLS: u64 = 6_000;
/// Longer inputs are left out of these calls, but for the largest sheet: they take most of the time, and memory is the same matter
/// at any length.
const MOST_INPUT: usize = 4_096;

/// A longer input is made again each time: 21 of them have 16 MiB.
const MOST_KEPT: usize = 1 << 22;

/// Runs with a mistake switched on; none if it panics or takes too many steps.
fn with_mistake<T>(number: usize, run: impl FnOnce() -> T) -> Option<T> {
    set_fuel(FUEL);
    switch_mistake(number);
    let result = catch_unwind(AssertUnwindSafe(run));
    switch_mistake(0);
    set_fuel(u64::MAX);
    result.ok()
}

/// Says nothing of the panics that mistakes cause.
fn quietly<T>(run: impl FnOnce() -> T) -> T {
    let hook = take_hook();
    set_hook(Box::new(|_| {}));
    let result = run();
    set_hook(hook);
    result
}

/// The planner and the judge that a mistake stands in.
fn parts(mistake: &Planted) -> (PlanFn, Judge) {
    let copies = copies();
    if mistake.place == Place::Planner {
        (copies.planted, JUDGE)
    } else {
        (copies.instrumented, copies.planted_judge)
    }
}

/// What `plan` prints with the mistake.
pub fn text_with(number: usize, mistake: &Planted, input: &[u8]) -> Option<Vec<u8>> {
    let (plan, judge) = parts(mistake);
    with_mistake(number, || (judge.program)(plan, input, usize::MAX).text)
}

/// The stored cases with their answers.
struct Store {
    small: Vec<Case>,
    large: Vec<(Large, Option<Vec<u8>>, u64)>,
}

impl Store {
    fn open(folder: &Path) -> Self {
        let large = large::all().into_iter().zip(read_large(folder)).map(|(case, sum)| {
            let input = make_large(&case);
            (case, (input.len() <= MOST_KEPT).then_some(input), sum)
        });
        Self { small: read_cases(folder), large: large.collect() }
    }

    /// How many small cases show the mistake, and else the first large one, where these are asked.
    fn seen(&self, number: usize, mistake: &Planted, ask_large: bool) -> (usize, Option<usize>) {
        let shows = |case: &&Case| text_with(number, mistake, &case.input).as_ref() != Some(&case.text);
        let small = self.small.iter().filter(shows).count();
        if small > 0 || !ask_large {
            return (small, None);
        }
        let large = self.large.iter().position(|(case, kept, sum)| {
            let input = kept.as_deref().map_or_else(|| Cow::from(make_large(case)), Cow::from);
            text_with(number, mistake, &input).map(|text| fnv1a(&text)) != Some(*sum)
        });
        (0, large)
    }
}

/// Whether a call differs from the judge's, and whether one is not as the papers' sentences say.
fn memory_sees(number: usize, mistake: &Planted) -> (bool, bool) {
    let (plan, judge) = parts(mistake);
    let mut subject = harness::Oracle { plan, judge };
    let run = || harness::run_to_difference(&mut subject, 0, CALLS, MOST_INPUT);
    with_mistake(number, run).map_or((true, true), |tally| (tally.differences > 0, tally.broken > 0))
}

/// The number of sheets until a fault, if any.
fn cover_sees(number: usize, mistake: &Planted) -> Option<u64> {
    let (plan, _) = parts(mistake);
    let mut seed = 0;
    // In pieces, so that a panic or a run without end is itself a fault of its piece.
    while seed < SHEETS {
        match with_mistake(number, || brute::search(plan, seed, 500, true)) {
            Some(tally) if tally.faults == 0 => seed += 500,
            Some(tally) => return Some(seed + tally.sheets),
            None => return Some(seed + 500),
        }
    }
    None
}

/// One line of the report, and whether the mistake was seen as its table says.
/// Only a whole report asks the large cases for a mistake that no text can show.
fn report(number: usize, mistake: &Planted, store: &Store, whole: bool) -> (String, bool) {
    let shown = matches!(mistake.seen, Seen::Stored | Seen::Cover);
    let (small, large) = store.seen(number, mistake, whole || shown);
    let stored = match (small, large) {
        (0, None) => None,
        (0, Some(place)) => Some(format!("large case {place}")),
        (count, _) => Some(format!("{count} small cases")),
    };
    match mistake.seen {
        Seen::Stored => (stored.clone().unwrap_or("NOT SEEN".into()), stored.is_some()),
        Seen::Cover => {
            let cover = cover_sees(number, mistake);
            let both = stored.is_some() && cover.is_some();
            let cover = cover.map_or("NOT SEEN by the brute force".into(), |sheets| format!("brute force after {sheets} sheets"));
            (format!("{}, {cover}", stored.unwrap_or("NOT SEEN by a stored case".into())), both)
        }
        Seen::Memory => {
            let seen = memory_sees(number, mistake) == (true, true) && stored.is_none();
            (if seen { "memory after a call, by comparison and by the papers' sentences".into() } else { "NOT SEEN by memory runs alone".into() }, seen)
        }
        Seen::Never(reason) => {
            let unseen = stored.is_none() && memory_sees(number, mistake) == (false, false);
            (if unseen { format!("equivalent: {reason}") } else { "SEEN, though said to be equivalent".into() }, unseen)
        }
    }
}

/// Reports on every mistake, on all cores; the numbers passed and failed.
pub fn run(folder: &Path, verbose: bool) -> (usize, usize) {
    let store = Store::open(folder);
    let threads = std::thread::available_parallelism().map_or(1, usize::from);
    let store = &store;
    let share = move |own: usize| {
        let mine = all().enumerate().filter(|(place, _)| place % threads == own);
        mine.map(|(place, mistake)| (place, mistake, report(place + 1, mistake, store, verbose))).collect::<Vec<_>>()
    };
    let mut reports = quietly(|| {
        std::thread::scope(|scope| {
            let running: Vec<_> = (0..threads).map(|own| scope.spawn(move || share(own))).collect();
            running.into_iter().flat_map(|thread| thread.join().expect("a report")).collect::<Vec<_>>()
        })
    });
    reports.sort_by_key(|report| report.0);
    for (place, mistake, (line, good)) in &reports {
        if verbose || !good {
            println!("{:4} {:?}: {}: {line}", place + 1, mistake.place, mistake.name);
        }
    }
    let passed = reports.iter().filter(|report| report.2.1).count();
    (passed, reports.len() - passed)
}

/// Looks among fresh cases, of one family if it is named, for one that shows each mistake that no stored case shows.
pub fn choose(folder: &Path, seeds: u64, family: Option<&str>) {
    let store = Store::open(folder);
    quietly(|| {
        for (place, mistake) in all().enumerate() {
            if !matches!(mistake.seen, Seen::Stored | Seen::Cover) {
                continue;
            }
            if store.seen(place + 1, mistake, false).0 > 0 {
                continue;
            }
            match find(place + 1, mistake, seeds, family) {
                Some((family, seed)) => println!("    (\"{family}\", {seed}), // {}", mistake.name),
                None => println!("    // no small case shows: {}", mistake.name),
            }
        }
    });
}

fn find(number: usize, mistake: &Planted, seeds: u64, name: Option<&str>) -> Option<(&'static str, u64)> {
    for seed in 0..seeds {
        for family in FAMILIES.iter().filter(|family| name.is_none_or(|name| name == family.name)) {
            let input = make(family, seed);
            if is_small(&input) && shows(number, mistake, &input) {
                return Some((family.name, seed));
            }
        }
    }
    None
}

/// Whether what `plan` prints differs with the mistake. A hostile input shows nothing.
fn shows(number: usize, mistake: &Planted, input: &[u8]) -> bool {
    let expected = with_mistake(0, || answer(input).text);
    expected.is_some() && text_with(number, mistake, input) != expected
}

/// Prints how many of the first cases of each family show one mistake.
pub fn count(number: usize, mistake: &Planted, seeds: u64) {
    quietly(|| {
        for family in FAMILIES {
            let shown = (0..seeds).filter(|&seed| shows(number, mistake, &make(family, seed))).count();
            println!("{shown:6} {}", family.name);
        }
    });
}
