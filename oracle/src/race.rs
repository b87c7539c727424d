//! The planner's static library against the Rust on large sheets, in one run: each round takes every measurement once,
//! one after the other, and the least and the median of each are given. `bench/plan/run` prints this table and the bounds.
//!
//! Ours works on the sheet's bytes. *questions* is questions 1 to 7 alone (`sheet_check`), *with finder* a whole call with
//! the sheet's own finder, *without* a whole call without one, *opening* the call that fills the finder. *asked* is a call
//! with the own finder at depth 49, which number 10 refuses: it asks questions 1 to 7, compares the finder and plans
//! nothing. So *plan* is the time with a finder less that of *asked*, and *questions + plan* is what the questions and it take
//! without the comparison of the finder. `-` stands for what was not measured. The Rust plans on a prepared library. *build* reads
//! the bytes (the judge's reader) and prepares that library, *Rust plan* is `PreparedLibrary::plan` of the plain copy
//! alone.

use std::hint::black_box;
use std::time::{Duration, Instant};

use crate::answer::Lent;
use crate::events::Settings;
use crate::generator::{large::LARGE, large::Large, make_large, raced::RACED};
use crate::harness::Subject;
use crate::judge::call::{MAX_DEPTH, named_places};
use crate::judge::program::split;
use crate::judge::{finder, reader, tape};
use crate::library::{Library, check};
use crate::sheet::{Query, Sheet};
use crate::timing::SHEETS;
use crate::variants::copies;

/// No round of a sheet begins after this, without the walks: the rounds that were made are counted in the table.
const PATIENCE: Duration = Duration::from_secs(60);
/// After so much planning without a finder a sheet is planned only with one: the walks of a large one take up to minutes.
const WALKING_PATIENCE: Duration = Duration::from_secs(5);

/// The sheets of the bound of one half.
const HALVED: [(&str, u64); 4] = [("city", 20_000), ("city", 110_000), ("street", 40_000), ("street", 130_000)];
/// The cities that the bound on the plan alone must have.
const CITIES: [u64; 3] = [2_000, 20_000, 110_000];
/// Milliseconds of the Rust's plan from which on the bounds against it are kept: below, the clock's steps count.
const TIMED: f64 = 0.1;
/// Bytes of a sheet from which on reading and planning together are bounded.
const LONG: usize = 100_000;

/// What is measured, in the order of the table.
const PARTS: [&str; 7] =
    ["questions", "asked", "opening", "with finder", "without", "Rust build", "Rust plan"];

fn timed<T>(run: impl FnOnce() -> T) -> (f64, T) {
    let start = Instant::now();
    let result = black_box(run());
    (start.elapsed().as_secs_f64() * 1e3, result)
}

/// A sheet that is raced: what is planned, what must come out, and the times in milliseconds.
struct Race<'a> {
    bytes: &'a [u8],
    sheet: Sheet,
    query: Query,
    expected: Vec<u8>,
    lent: Lent,
    own: Vec<u32>,
    times: [Vec<f64>; 7],
}

impl<'a> Race<'a> {
    /// None for a sheet that is refused.
    fn new(input: &'a [u8]) -> Option<Self> {
        let (query, start) = split(input)?;
        let bytes = &input[start..];
        let sheet = reader::open(bytes).ok()?;
        let expected = tape::write(&(copies().instrumented)(&sheet, &query, Settings::DOCUMENT));
        let (counts, marks) = named_places(sheet.cells.len(), query.depth);
        let lent = Lent { finder: None, output: vec![0; expected.len()], counts: vec![0; counts], marks: vec![0; marks] };
        Some(Self { bytes, sheet, query, expected, lent, own: finder::own(bytes), times: Default::default() })
    }

    fn note(&mut self, part: usize, time: f64) {
        self.times[part].push(time);
    }

    /// Our plan, with the own finder or without: the judge's tape.
    fn plan(&mut self, part: usize, finder: Option<Vec<u32>>) {
        self.lent.finder = finder;
        self.lent.output.fill(0);
        let (time, answer) = timed(|| Library.plan(black_box(self.bytes), &self.query, self.lent.slices()));
        assert_eq!((answer.number, answer.length), (0, self.expected.len() as u64), "a plan of the judge's length");
        assert!(self.lent.output == self.expected, "the judge's tape");
        self.note(part, time);
    }

    fn round(&mut self, walking: bool) {
        let (time, number) = timed(|| check(black_box(self.bytes)).0);
        assert_eq!(number, 0, "a sound sheet");
        self.note(0, time);
        let deeper = Query { depth: MAX_DEPTH + 1, ..self.query.clone() };
        self.lent.finder = Some(self.own.clone());
        let (time, answer) = timed(|| Library.plan(black_box(self.bytes), &deeper, self.lent.slices()));
        assert_eq!(answer.number, 10, "the own finder is taken, the depth is not");
        self.note(1, time);
        let mut list = vec![0; self.own.len()];
        let (time, answer) = timed(|| Library.open(black_box(self.bytes), &mut list));
        assert!(answer.number == 0 && list == self.own, "the judge's finder");
        self.note(2, time);
        self.plan(3, Some(list));
        if walking {
            self.plan(4, None);
        }
        let (read, _) = timed(|| reader::open(black_box(self.bytes)));
        let [prepared, planned] = (copies().timed)(&self.sheet, &self.query).map(|time| time.as_secs_f64() * 1e3);
        self.note(5, read + prepared);
        self.note(6, planned);
    }

    /// The walks are not counted against the patience: else a slow one would leave a single round with a finder.
    fn rounds(&mut self, most: usize, walking: bool) {
        let start = Instant::now();
        for round in 0..most {
            let walked = Duration::from_secs_f64(self.times[4].iter().sum::<f64>() / 1e3);
            if round > 0 && start.elapsed().saturating_sub(walked) > PATIENCE {
                break;
            }
            self.round(walking && walked < WALKING_PATIENCE);
        }
    }

    /// The least and the median of one measurement, NaN where it was not made.
    fn figures(&self, part: usize) -> (f64, f64) {
        let mut times = self.times[part].clone();
        if times.is_empty() {
            return (f64::NAN, f64::NAN);
        }
        times.sort_by(f64::total_cmp);
        (times[0], (times[(times.len() - 1) / 2] + times[times.len() / 2]) / 2.0)
    }
}

/// A row of the table, and what the bounds are about: the least times.
struct Row {
    name: &'static str,
    seed: u64,
    line: String,
    /// Our whole call with a finder, over the Rust's build and plan.
    share: f64,
    /// Our plan alone, without questions and check, and the Rust's.
    plan: f64,
    rust: f64,
    /// Questions and plan, over the Rust's build and plan, for a sheet of so many bytes.
    checked: f64,
    bytes: usize,
}

fn row(large: &Large, input: &[u8], most: usize, walking: bool) -> Option<Row> {
    let mut race = Race::new(input)?;
    race.rounds(most, walking);
    let figures: [(f64, f64); 7] = std::array::from_fn(|part| race.figures(part));
    let [questions, asked, _, found, walked, build, rust] = figures;
    let plan = ((found.0 - asked.0).max(0.0), (found.1 - asked.1).max(0.0));
    let share = found.0 / (build.0 + rust.0);
    let mut line = format!(
        "| {} {} | {} | {} | {} and {} |",
        large.name,
        large.seed,
        race.bytes.len(),
        race.expected.len(),
        race.times[3].len(),
        race.times[4].len()
    );
    for (least, median) in figures.into_iter().chain([plan]) {
        line += &if least.is_nan() { " - |".to_string() } else { format!(" {least:.3} / {median:.3} |") };
    }
    // A plan that is lost in the noise of the check has no ratio.
    let ratio = if plan.0 == 0.0 { "-".to_string() } else { format!("{:.2}", plan.0 / rust.0) };
    let checked = (questions.0 + plan.0) / (build.0 + rust.0);
    let walking = if walked.0.is_nan() { "-".to_string() } else { format!("{:.1}", walked.0 / (build.0 + rust.0)) };
    line += &format!(" {ratio} | {checked:.2} | {share:.2} | {walking} |");
    let (plan, rust, bytes) = (plan.0, rust.0, race.bytes.len());
    Some(Row { name: large.name, seed: large.seed, line, share, plan, rust, checked, bytes })
}

/// The worst of some rows by a figure, as a bound: what it says, and whether it holds. None without a row.
fn worst_of<'a>(rows: impl Iterator<Item = &'a Row>, figure: impl Fn(&Row) -> f64, says: &str, holds: impl Fn(f64) -> bool) -> Option<(String, bool)> {
    let rows: Vec<&Row> = rows.collect();
    let worst = rows.iter().max_by(|a, b| figure(a).total_cmp(&figure(b)))?;
    let text = format!("{} {says}: {:.2}, {} {}", rows.len(), figure(worst), worst.name, worst.seed);
    Some((text, holds(figure(worst))))
}

/// The bounds against the Rust's plan, over all rows on which that takes long enough, and against its build and plan, over
/// all long sheets. On a slanted sheet the fused operation, which the processor has, is done by shifts and masks.
/// That half of the rows are ahead of the Rust is asked of the whole table alone.
fn pace_bounds(rows: &[Row], whole: bool) -> Vec<(String, bool)> {
    let timed = || rows.iter().filter(|row| row.rust > TIMED);
    let slanted = |row: &&Row| row.name.starts_with("slanted");
    // A plan that is lost in the noise is no measurement.
    let ratio = |row: &Row| if row.plan == 0.0 { f64::INFINITY } else { row.plan / row.rust };
    let says = "the plan over the Rust's at most";
    let mut bounds = Vec::new();
    let square = timed().filter(|row| !slanted(row));
    bounds.extend(worst_of(square, ratio, &format!("sheets: {says} 1.5"), |worst| worst <= 1.5));
    bounds.extend(worst_of(timed().filter(slanted), ratio, &format!("slanted sheets: {says} 2.5"), |worst| worst <= 2.5));
    let long = rows.iter().filter(|row| row.bytes > LONG);
    let says = "long sheets: questions + plan over the Rust's build + plan below 1";
    bounds.extend(worst_of(long, |row| row.checked, says, |worst| worst < 1.0));
    if whole {
        let (ahead, all) = (timed().filter(|row| ratio(row) <= 1.0).count(), timed().count());
        bounds.push((format!("the plan over the Rust's at most 1.0 on half of {all} sheets: {ahead}"), 2 * ahead >= all));
        let absent = bounds.len() < 4;
        bounds.push((format!("{} of the 4 bounds on the pace have a row", bounds.len()), !absent));
    }
    bounds
}

/// The bounds that the finder must keep, of those sheets whose name begins so: what each says, what was measured, and
/// whether it holds. A bound that lacks a row does not hold: a sheet may have been renamed, or be refused.
fn bounds(rows: &[Row], name: &str) -> Vec<(String, bool)> {
    let mut bounds = Vec::new();
    for (sheet, seed) in HALVED.into_iter().filter(|(sheet, _)| sheet.starts_with(name)) {
        let share = rows.iter().find(|row| (row.name, row.seed) == (sheet, seed)).map(|row| row.share);
        let measured = share.map_or("no row".to_string(), |share| format!("{share:.2}"));
        let text = format!("{sheet} {seed}: with finder at most 0.5 of the Rust's build + plan: {measured}");
        bounds.push((text, share.is_some_and(|share| share <= 0.5)));
    }
    if "city".starts_with(name) {
        bounds.push(cities_bound(rows));
    }
    bounds.extend(pace_bounds(rows, name.is_empty()));
    bounds
}

/// Every city in the range counts, and `CITIES` must be among them.
fn cities_bound(rows: &[Row]) -> (String, bool) {
    let cities: Vec<&Row> = rows.iter().filter(|row| row.name == "city" && (2_000..=110_000).contains(&row.seed)).collect();
    let absent = CITIES.iter().filter(|&&seed| cities.iter().all(|row| row.seed != seed));
    let absent: Vec<String> = absent.map(u64::to_string).collect();
    let plans = cities.iter().map(|row| row.plan);
    let (least, most) = plans.fold((f64::MAX, 0.0f64), |(least, most), plan| (least.min(plan), most.max(plan)));
    let measured = if absent.is_empty() { format!("{least:.3} to {most:.3} ms") } else { format!("no row of {}", absent.join(", ")) };
    let text = format!("{} cities from 2,000 to 110,000: the plan alone within a factor 2: {measured}", cities.len());
    (text, absent.is_empty() && most <= 2.0 * least)
}

/// The table in Markdown: five large sheets, those that are only raced and never without a finder, then every limit case that
/// is planned, of all those whose name begins so. Whether there is a row, and every bound holds.
pub fn run(most: usize, name: &str) -> bool {
    println!("Milliseconds, least / median of the rounds (with a finder and without). Ratios are of the least times.\n");
    println!(
        "| sheet | bytes | tape | rounds | {} | plan | plan / Rust plan | questions + plan / build + plan | with finder / build + plan | without / build + plan |",
        PARTS.join(" | ")
    );
    println!("|{}", "---|".repeat(PARTS.len() + 9));
    let mut rows = Vec::new();
    let walked = |large| (large, true);
    let sheets = SHEETS.iter().map(walked).chain(RACED.iter().map(|large| (large, false))).chain(LARGE.iter().map(walked));
    for (large, walking) in sheets.filter(|(large, _)| large.name.starts_with(name)) {
        if let Some(row) = row(large, &make_large(large), most, walking) {
            println!("{}", row.line);
            rows.push(row);
        }
    }
    println!();
    if rows.is_empty() {
        println!("FAIL: no row: no sheet's name begins with {name:?}, or each is refused");
        return false;
    }
    let bounds = bounds(&rows, name);
    for (text, holds) in &bounds {
        println!("{}: {text}", if *holds { "PASS" } else { "FAIL" });
    }
    bounds.iter().all(|(_, holds)| *holds)
}
