//! The subcommands' own work: fresh cases, coverage, replays, and the table of edits.

use std::io::Write;
use std::panic::{AssertUnwindSafe, catch_unwind, resume_unwind};
use std::path::Path;

use crate::answer::Outcome;
use crate::checksum::fnv1a;
use crate::coverage::{Coverage, MostDropped, tags};
use crate::edits::{ALTERATIONS, Edit, PIECES, SUBSTITUTIONS, instrument::INSTRUMENT, planted};
use crate::events::{OutOfFuel, fuel_left, set_fuel};
use crate::generator::{FAMILIES, Family, edges, family, faults, large, make, make_edge, make_large};
use crate::harness::{Entry, Oracle, Tally};
use crate::stored::{answer, read_cases, read_large};
use crate::variants::{JUDGE, checked};

/// The tags that only calls on lent memory can show: by which function, with which number.
const CALLED: [(&str, (Entry, u32)); 4] = [
    ("refusal-11", (Entry::Plan, 11)),
    ("refusal-12", (Entry::Plan, 12)),
    ("refusal-13-open", (Entry::Open, 13)),
    ("refusal-13-plan", (Entry::PlanWithFinder, 13)),
];
/// Steps that a fresh case may take; a hostile one is passed over.
const FUEL: u64 = 5_000_000;

/// What a run gives and how many steps it took, unless they are too many.
pub fn bounded<T>(run: impl FnOnce() -> T) -> Option<(T, u64)> {
    bounded_by(FUEL, run)
}

/// The same with at most so many steps. Any other panic goes on.
pub fn bounded_by<T>(most: u64, run: impl FnOnce() -> T) -> Option<(T, u64)> {
    set_fuel(most);
    let result = catch_unwind(AssertUnwindSafe(run));
    let steps = most - fuel_left();
    set_fuel(u64::MAX);
    match result {
        Ok(value) => Some((value, steps)),
        Err(panic) if panic.is::<OutOfFuel>() => None,
        Err(panic) => resume_unwind(panic),
    }
}

/// The answer to a fresh case, unless it takes too long.
fn fresh(family: &Family, seed: u64) -> Option<(Vec<u8>, Outcome)> {
    let input = make(family, seed);
    bounded(|| answer(&input)).map(|(outcome, _)| (input, outcome))
}

/// Fresh cases of these families, both copies checked against each other on each: cases run and passed over.
pub fn fresh_cases<'a>(
    families: impl IntoIterator<Item = &'a Family>,
    seed: u64,
    each: u64,
    coverage: &mut Coverage,
    most: &mut MostDropped,
) -> (u64, u64) {
    let (mut run, mut passed_over) = (0, 0);
    for family in families {
        for seed in seed..seed + each {
            match fresh(family, seed) {
                Some((_, outcome)) => {
                    coverage.add(&tags(&outcome));
                    most.see(outcome.dropped(), || format!("{} seed {seed}", family.name));
                    run += 1;
                }
                None => passed_over += 1,
            }
        }
    }
    (run, passed_over)
}

/// Coverage of hand-made, fresh, large and lent cases together.
pub fn coverage(seed: u64, each: u64) {
    let (mut coverage, mut most, mut most_of_large) = (Coverage::default(), MostDropped::default(), MostDropped::default());
    let (run, passed_over) = fresh_cases(FAMILIES, seed, each, &mut coverage, &mut most);
    let mut hand = 0;
    let inputs = edges::all().iter().map(make_edge).collect::<Vec<_>>();
    for input in inputs.into_iter().chain(faults::all().into_iter().map(|fault| fault.input)) {
        coverage.add(&tags(&answer(&input)));
        hand += 1;
    }
    let large_cases = large::all();
    for large in &large_cases {
        let outcome = answer(&make_large(large));
        coverage.add(&tags(&outcome));
        most_of_large.see(outcome.dropped(), || format!("{} {}", large.name, large.seed));
    }
    let mut subject = Oracle { plan: checked, judge: JUDGE };
    let tally = crate::harness::run(&mut subject, seed, each);
    for (tag, call) in CALLED {
        for _ in 0..tally.numbers.get(&call).copied().unwrap_or(0) {
            coverage.add_tag(tag);
        }
    }
    coverage.add(&tags(&(JUDGE.program)(checked, &[0; 65], 64)));
    println!("{run} fresh, {hand} by hand, {} large, {} calls on lent memory; {passed_over} passed over as hostile", large_cases.len(), tally.calls);
    print!("{}{}{}", coverage.table(), most.line("fresh"), most_of_large.line("large"));
}

/// Coverage of the fresh cases of one family alone.
pub fn family_coverage(name: &str, seed: u64, each: u64) {
    let (mut coverage, mut most) = (Coverage::default(), MostDropped::default());
    let (run, passed_over) = fresh_cases(family(name), seed, each, &mut coverage, &mut most);
    println!("{run} fresh of {name}; {passed_over} passed over as hostile");
    print!("{}{}", coverage.table(), most.line("fresh"));
}

/// The tags that neither a stored case shows nor, for numbers 11 to 13, a call on lent memory, nor a small buffer.
pub fn gaps(folder: &Path, tally: &Tally) -> Vec<&'static str> {
    let mut coverage = crate::stored::coverage(folder);
    for (tag, call) in CALLED {
        if tally.numbers.contains_key(&call) {
            coverage.add_tag(tag);
        }
    }
    coverage.add(&tags(&(JUDGE.program)(checked, &[0; 65], 64)));
    coverage.gaps()
}

/// Writes fresh cases as they are stored, each before with its family and seed for the comparison's report.
pub fn write_cases(seed: u64, each: u64, out: &mut impl Write) {
    for family in FAMILIES {
        for seed in seed..seed + each {
            let Some((input, outcome)) = fresh(family, seed) else { continue };
            let label = format!("{} seed {seed}", family.name);
            for part in [label.as_bytes(), &input, &outcome.text] {
                out.write_all(&(part.len() as u32).to_le_bytes()).unwrap();
            }
            for part in [label.as_bytes(), &input, &outcome.text] {
                out.write_all(part).unwrap();
            }
        }
    }
}

/// Replays the stored answers with the oracle itself.
pub fn replay(folder: &Path) -> (usize, usize) {
    let (mut passed, mut failed) = (0, 0);
    for (number, case) in read_cases(folder).iter().enumerate() {
        let good = answer(&case.input).text == case.text;
        if !good {
            println!("stored case {number} differs");
        }
        passed += usize::from(good);
        failed += usize::from(!good);
    }
    for (number, (case, sum)) in large::all().iter().zip(read_large(folder)).enumerate() {
        let good = fnv1a(&answer(&make_large(case)).text) == sum;
        if !good {
            println!("large case {number} differs");
        }
        passed += usize::from(good);
        failed += usize::from(!good);
    }
    (passed, failed)
}

/// The planted mistakes by number.
pub fn print_mistakes() {
    for (place, mistake) in planted::all().enumerate() {
        println!("{:4} {:?} {:?}: {}", place + 1, mistake.place, mistake.seen, mistake.name);
    }
}

fn edit_rows(title: &str, edits: &[Edit]) -> String {
    let mut text = format!("\n## {title}\n\n| places | found | put | why |\n|---|---|---|---|\n");
    let cell = |text: &str| text.trim().replace('\n', " ⏎ ").replace('|', "\\|");
    for edit in edits {
        text += &format!("| {} | `{}` | `{}` | {} |\n", edit.count, cell(edit.find), cell(edit.put), edit.why);
    }
    if edits.is_empty() {
        text += "| - | none | - | - |\n";
    }
    text
}

/// Everything that is taken from the Rust source and changed in it: EDITS.md.
pub fn edits_page() -> String {
    let mut text = String::from(
        "# What is taken from the Rust source, and every edit of it\n\nMade by `oracle edits`; `oracle/quick` checks that it \
         is up to date. build.rs asserts the SHA-256 of each piece, and that each edit meets exactly its count of places. \
         Of lines 6 to 81 `sed -n '6,81p' FILE | sha256sum` prints the hash.\n\n## Pieces\n\n| piece | file | lines | SHA-256 |\n\
         |---|---|---|---|\n",
    );
    for piece in PIECES {
        let (first, last) = piece.lines;
        text += &format!("| {} | {} | {first} to {last} | `{}` |\n", piece.name, piece.file, piece.sha256);
    }
    text += &edit_rows("Substitutions in both copies", SUBSTITUTIONS);
    text += &edit_rows("Alterations by change requests, in both copies", ALTERATIONS);
    text + &edit_rows("The instrumented copy", INSTRUMENT)
}
