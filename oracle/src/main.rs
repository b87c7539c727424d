//! The judge of demand 2: the Rust planner's text, altered where a change request says so, over stand-ins; a generator,
//! stored answers, planted mistakes, demand 3 by brute force and slanted sheets. README.md says what each subcommand does.

// Without the Rust source much here has no caller.
#![cfg_attr(sourceless, allow(dead_code, unused_imports))]

mod answer;
mod brute;
mod checksum;
mod commands;
mod coverage;
#[cfg(feature = "library")]
mod differential;
mod edits;
mod events;
mod finders;
mod generator;
mod harness;
mod judge;
mod levels;
#[cfg(feature = "library")]
mod library;
mod planted;
#[cfg(feature = "library")]
mod race;
mod readings;
mod sha256;
mod sheet;
mod slanted;
mod stated;
mod stored;
mod timing;
mod variants;

use std::io::{Read, Write, stdin, stdout};
use std::path::{Path, PathBuf};
use std::process::exit;

const USAGE: &str = "oracle COMMAND: plan [BUFFER] | planted-plan NUMBER | edits | mistakes |
  planted-count NUMBER SEEDS | coverage EACH [SEED [FAMILY]] |
  cases EACH [SEED] | large NUMBER | store | verify | replay | choose SEEDS [FAMILY] | planted | cover COUNT [SEED] |
  slanted SHEETS [SEED] | memory COUNT [SEED] | timings | quick
  with the feature `library`: differential COUNT [SEED] | slanted-library COUNT [SEED] | files FOLDER |
  race [ROUNDS [NAME]]";

fn stored_folder() -> PathBuf {
    Path::new(env!("CARGO_MANIFEST_DIR")).join("stored")
}

fn input() -> Vec<u8> {
    let mut input = Vec::new();
    stdin().read_to_end(&mut input).expect("input");
    input
}

/// Prints the closing line and ends with the verdict.
fn verdict((passed, failed): (usize, usize)) -> ! {
    println!("{passed} passed, {failed} failed");
    exit(i32::from(failed > 0));
}

fn main() {
    let arguments: Vec<String> = std::env::args().skip(1).collect();
    let command = arguments.first().map_or("", String::as_str);
    let number = |place: usize, otherwise: u64| {
        arguments.get(place).map_or(otherwise, |text| text.parse().expect("a number"))
    };
    let folder = stored_folder();
    match command {
        "plan" => plan(number(1, u64::MAX) as usize),
        "planted-plan" => {
            let text = planted::text_with(number(1, 1) as usize, mistake(number(1, 1)), &input());
            print(&text.unwrap_or_default());
        }
        "edits" => print(commands::edits_page().as_bytes()),
        "mistakes" => commands::print_mistakes(),
        "coverage" => match arguments.get(3) {
            Some(family) => commands::family_coverage(family, number(2, 0), number(1, 100)),
            None => commands::coverage(number(2, 0), number(1, 100)),
        },
        "cases" => commands::write_cases(number(2, 0), number(1, 10), &mut stdout().lock()),
        "large" => {
            let case = generator::large::all()[number(1, 0) as usize];
            print(&generator::make_large(&case));
        }
        "store" => stored::store(&folder),
        "verify" => {
            let different = stored::verify(&folder);
            verdict((3 - different, different));
        }
        "replay" => verdict(commands::replay(&folder)),
        "choose" => planted::choose(&folder, number(1, 100), arguments.get(2).map(String::as_str)),
        "planted" => verdict(planted::run(&folder, true)),
        "planted-count" => planted::count(number(1, 1) as usize, mistake(number(1, 1)), number(2, 1_000)),
        "cover" => cover(number(2, 0), number(1, 1_000)),
        "slanted" => {
            let (tally, judged) = slanted_sheets(number(2, 0), number(1, 1_000));
            print!("{}", tally.tables());
            verdict(judged);
        }
        "memory" => memory(number(2, 0), number(1, 1_000)),
        "timings" => timing::run(),
        #[cfg(feature = "library")]
        "differential" => judge_library(true, |subject, folder| {
            differential::run(subject, number(1, 10_000), number(2, 0), folder)
        }),
        #[cfg(feature = "library")]
        "slanted-library" => judge_library(false, |subject, folder| {
            differential::run_slanted(subject, number(1, 10_000), number(2, 0), folder)
        }),
        #[cfg(feature = "library")]
        "files" => judge_library(false, |subject, folder| {
            differential::run_files(subject, Path::new(&arguments[1]), folder)
        }),
        #[cfg(feature = "library")]
        "race" => exit(i32::from(!race::run(number(1, 15) as usize, arguments.get(2).map_or("", String::as_str)))),
        "quick" => quick(&folder),
        _ => {
            eprintln!("{USAGE}");
            exit(2);
        }
    }
}

fn print(bytes: &[u8]) {
    stdout().write_all(bytes).expect("output");
}

/// The program `plan`, judged.
fn plan(buffer: usize) {
    variants::copies();
    print(&(variants::JUDGE.program)(variants::checked, &input(), buffer).text);
}

/// A planted mistake by its number, as `mistakes` prints it.
fn mistake(number: u64) -> &'static edits::planted::Planted {
    edits::planted::all().nth(number as usize - 1).expect("a mistake of that number")
}

/// A run of so many sheets by brute force must meet every kind of node grid at a limit and of deep level, and a plan that drops two
/// proxies.
const LONG_RUN: u64 = 3_000;

/// Demand 3 by brute force.
fn cover(seed: u64, count: u64) {
    let tally = brute::search(variants::checked, seed, count, false);
    println!(
        "{} sheets with {} paths and {} events; {} with paths cut at depth + 2 members; {} passed over",
        tally.sheets, tally.paths, tally.events, tally.cut, tally.passed_over
    );
    println!("sheets that show: {:?}", tally.shown);
    println!("sheets by where a node grid met a limit:");
    tally.node_grids.iter().for_each(|(what, sheets)| println!("{sheets:8} {what}"));
    println!("sheets by what stands deeper than level 32:");
    tally.deep.iter().for_each(|(what, sheets)| println!("{sheets:8} {what}"));
    print!("{}", tally.most_dropped.line("small limits"));
    if let Some(first) = &tally.first {
        println!("first fault: {first}");
    }
    let missing = if tally.sheets < LONG_RUN { Vec::new() } else { tally.missing() };
    missing.iter().for_each(|what| println!("not met: {what}"));
    verdict(((tally.sheets - tally.faults) as usize, tally.faults as usize + missing.len()));
}

/// A run of so many slanted sheets must show every feature and kind.
const LONG_SLANTED_RUN: u64 = 2_000;

/// Paper 14 on slanted sheets: what was seen, and how many sheets passed and failed; what a run lacks fails too.
fn slanted_sheets(seed: u64, count: u64) -> (slanted::Tally, (usize, usize)) {
    let folder = Path::new(env!("CARGO_MANIFEST_DIR")).join("target/slanted");
    let tally = slanted::run(variants::checked, seed, count, &folder);
    if let Some(first) = &tally.first {
        println!("first fault: {first}");
    }
    let missing = tally.missing(count >= LONG_SLANTED_RUN);
    missing.iter().for_each(|what| println!("not met: {what}"));
    let judged = ((tally.sheets - tally.faults) as usize, tally.faults as usize + missing.len());
    (tally, judged)
}

/// Calls on lent memory: the judge's own answers and memory against the papers' sentences.
fn memory(seed: u64, count: u64) {
    let mut subject = harness::Oracle { plan: variants::copies().instrumented, judge: variants::JUDGE };
    let tally = harness::run(&mut subject, seed, count);
    for entry in [harness::Entry::Plan, harness::Entry::Open, harness::Entry::PlanWithFinder] {
        let mine = tally.numbers.iter().filter(|((other, _), _)| *other == entry);
        let numbers: Vec<String> = mine.map(|((_, number), calls)| format!("{number}: {calls}")).collect();
        println!("{entry:?}, calls by number: {}", numbers.join(", "));
    }
    if let Some(first) = &tally.first {
        println!("first fault: {first}");
    }
    verdict(((tally.calls - tally.broken) as usize, tally.broken as usize));
}

/// The static library against the judge. A whole run must meet every answer and every kind of list.
#[cfg(feature = "library")]
fn judge_library(whole: bool, run: impl FnOnce(&mut dyn harness::Subject, &Path) -> differential::Report) {
    let folder = Path::new(env!("CARGO_MANIFEST_DIR")).join("target/differential");
    let report = run(&mut library::Library, &folder);
    print!("{}", report.table());
    let calls = report.all_calls();
    println!(
        "{} cases compared, {} passed over (no query, or hostile); {calls} calls; tapes alike but for signs of zero: {}",
        report.cases, report.passed_over, report.zeros
    );
    if calls == 0 {
        println!("nothing was compared");
        verdict((0, 1));
    }
    let missing = if whole { report.missing() } else { Vec::new() };
    missing.iter().for_each(|what| println!("not met: {what}"));
    verdict(((calls - report.differences) as usize, report.differences as usize + missing.len()));
}

/// The quick tests: both copies on fresh cases, stored answers, planted mistakes, brute force, slanted sheets, memory.
fn quick(folder: &Path) -> ! {
    let (mut passed, mut failed) = (0, 0);
    let mut add = |what: &str, (good, bad): (usize, usize)| {
        println!("{what}: {good} passed, {bad} failed");
        passed += good;
        failed += bad;
    };
    let page = std::fs::read_to_string(folder.join("../EDITS.md")).unwrap_or_default();
    let current = usize::from(page == commands::edits_page());
    add("EDITS.md is up to date", (current, 1 - current));
    add("SHA-256, published vectors", sha256::check());
    add("the papers' readings", readings::run());
    add("stored answers", commands::replay(folder));
    let mut coverage = coverage::Coverage::default();
    let mut most = coverage::MostDropped::default();
    let (run, _) = commands::fresh_cases(generator::FAMILIES, 1_000_000, 300, &mut coverage, &mut most);
    add("fresh cases, both copies alike", (run as usize, 0));
    print!("{}", most.line("fresh"));
    let tally = brute::search(variants::checked, 1_000_000, LONG_RUN, false);
    add("demand 3 by brute force", ((tally.sheets - tally.faults) as usize, tally.faults as usize));
    let missing = tally.missing();
    missing.iter().for_each(|what| println!("not met by brute force: {what}"));
    add("node grids at a limit, deep levels and dropped proxies, by kind", (brute::kinds_wanted() - missing.len(), missing.len()));
    add("fractions, by hand", slanted::checks::by_hand());
    add("fractions against whole numbers", slanted::checks::against_whole_numbers());
    add("exact placements and bounds, by hand", slanted::checks::placements());
    add("the check of slanted sheets can fail", slanted::checks::can_fail());
    add("slanted sheets within 1/64", slanted_sheets(1_000_000, LONG_SLANTED_RUN).1);
    let mut subject = harness::Oracle { plan: variants::copies().instrumented, judge: variants::JUDGE };
    let tally = harness::run(&mut subject, 1_000_000, 3_000);
    add("memory after calls as stated", ((tally.calls - tally.broken) as usize, tally.broken as usize));
    let gaps = commands::gaps(folder, &tally);
    gaps.iter().for_each(|tag| println!("no stored case shows {tag}"));
    add("coverage of the stored cases, by tag", (coverage::TAGS.len() - gaps.len(), gaps.len()));
    add("planted mistakes", planted::run(folder, false));
    verdict((passed, failed));
}
