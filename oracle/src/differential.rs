//! The planner's static library against the judge: stored, large and fresh cases, each planned on lent memory of several
//! sizes, opened into lists of several lengths, and planned with finders of every kind. The answer, the tape and every
//! lent byte are compared, and the bytes around what was lent.

mod guarded;
mod report;

use std::fs;
use std::mem::replace;
use std::path::{Path, PathBuf};

use crate::answer::{Answer, Lent, Refusal};
use crate::commands::bounded;
use crate::finders::{KINDS, Kind, Maker, ROOMS, Room, any_places, list};
use crate::generator::rng::Rng;
use crate::generator::{FAMILIES, large, make, make_large};
use crate::harness::{Entry, Subject, around, lend};
use crate::judge::call::{named_places, plan};
use crate::judge::finder;
use crate::judge::program::split;
use crate::sheet::Query;
use crate::slanted;
use crate::stated::Stated;
use crate::stored::entries;
use crate::variants::checked;
pub use report::Report;

/// One in so many fresh cases is called with every size around its need: a prime, so that every family has some.
const SWEPT: u64 = 199;
/// A file is swept if the judge's steps times the sheet's bytes are at most this: hundreds of longer calls would take
/// minutes.
const SWEPT_WORK: u64 = 4_000_000;
/// A sheet of at most so many records is swept with every shorter finder, and with each place off by one.
const SWEPT_PLACES: usize = 64;

/// What the judge says of an input: a refusal by questions 1 to 10, or the tape; the own finder, and the memory needed.
struct Judged {
    refusal: Option<Refusal>,
    tape: Vec<u8>,
    stated: Stated,
}

fn judged(sheet: &[u8], query: &Query) -> Judged {
    match plan(checked, sheet, query) {
        Err(refusal) => {
            let own = (refusal.number > 7).then(|| finder::own(sheet));
            Judged { refusal: Some(refusal), tape: Vec::new(), stated: Stated { own, needed: None } }
        }
        Ok((opened, _, tape)) => {
            let (counts, marks) = named_places(opened.cells.len(), query.depth);
            let needed = Some((tape.len(), counts, marks));
            Judged { refusal: None, tape, stated: Stated { own: Some(finder::own(sheet)), needed } }
        }
    }
}

/// The tape with every zero positive: floats stand at the same places in records of the same kinds.
fn without_signs_of_zero(tape: &[u8]) -> Vec<u8> {
    let mut tape = tape.to_vec();
    let mut at = 0;
    while at + 6 <= tape.len() {
        let length = u32::from_le_bytes(tape[at..at + 4].try_into().unwrap()) as usize;
        let end = (at + length).min(tape.len());
        if tape[at + 4] != 15 {
            for place in (at + 10..end.saturating_sub(7)).step_by(8) {
                if tape[place..place + 8] == (-0.0f64).to_le_bytes() {
                    tape[place..place + 8].fill(0);
                }
            }
        }
        at += length.max(6);
    }
    tape
}

/// What is wrong with one call that plans, if anything.
fn fault(judged: &Judged, answer: Answer, before: &Lent, after: &Lent, zeros: &mut u64) -> Option<String> {
    if let Some(Refusal { number, offset }) = judged.refusal
        && !judged.stated.turns_away(before)
        && answer != (Answer { number, offset, length: 0 })
    {
        return Some(format!("answers {answer:?}, the judge refuses with {number} {offset}"));
    }
    if !judged.stated.is_so(answer, before, after) {
        let sizes = (before.output.len(), before.counts.len(), before.marks.len());
        let needed = judged.stated.needed;
        return Some(format!("answer or memory not as stated: {answer:?}, lent {sizes:?}, needed {needed:?}"));
    }
    if answer.number != 0 {
        return None;
    }
    let tape = &after.output[..judged.tape.len()];
    if tape == judged.tape {
        return None;
    }
    if without_signs_of_zero(tape) == without_signs_of_zero(&judged.tape) {
        *zeros += 1;
        return None;
    }
    let place = tape.iter().zip(&judged.tape).position(|(a, b)| a != b);
    Some(format!("the tape differs at byte {}", place.unwrap_or(0)))
}

/// The same of one call that opens.
fn opening_fault(judged: &Judged, answer: Answer, before: &[u32], after: &[u32]) -> Option<String> {
    if let Some(Refusal { number, offset }) = judged.refusal
        && number <= 7
        && answer != (Answer { number, offset, length: 0 })
    {
        return Some(format!("opening answers {answer:?}, the judge refuses with {number} {offset}"));
    }
    let stated = judged.stated.is_opened_so(answer, before, after);
    (!stated).then(|| format!("opening: answer or list not as stated: {answer:?}, lent {} places", before.len()))
}

/// The sizes of one call: output, counts, marks.
type Sizes = (usize, usize, usize);

/// Room enough, or any room.
fn size(judged: &Judged, enough: bool, rng: &mut Rng) -> Sizes {
    let (tape, counts, marks) = judged.stated.needed.unwrap_or((60, 9, 9));
    let mut room = |needed: usize| if enough { needed + rng.size(0, 9) } else { around(rng, needed) };
    (room(tape), room(counts), room(marks))
}

/// Every output from 64 bytes below the tape (from 0 where the tape is short) to 8 above, and every scratch around its
/// need.
fn swept_sizes(judged: &Judged) -> Vec<Sizes> {
    let (tape, counts, marks) = judged.stated.needed.unwrap_or((60, 9, 9));
    let least = if tape < 512 { 0 } else { tape - 64 };
    let outputs = (least..=tape + 8).map(|output| (output, counts, marks));
    let counted = (counts.saturating_sub(8)..=counts + 8).map(|counts| (tape, counts, marks));
    let marked = (marks.saturating_sub(8)..=marks + 8).map(|marks| (tape, counts, marks));
    outputs.chain(counted).chain(marked).collect()
}

/// Where the inputs of differences are kept, and how many.
struct Kept {
    folder: PathBuf,
    shown: usize,
}

impl Kept {
    fn show(&mut self, family: &str, label: &str, input: &[u8], fault: &str) {
        if self.shown == 5 {
            return;
        }
        self.shown += 1;
        fs::create_dir_all(&self.folder).expect("a folder for differences");
        let file = self.folder.join(format!("difference-{}.bin", self.shown));
        fs::write(&file, input).expect("the input of a difference");
        println!("{family}, {label}: {fault}\n  input kept in {}", file.display());
    }
}

/// One case under its calls.
struct Case<'a> {
    family: &'a str,
    label: &'a str,
    input: &'a [u8],
    sheet: &'a [u8],
    query: Query,
    judged: Judged,
    /// Whether a difference has been shown.
    shown: bool,
}

struct Runner<'a> {
    subject: &'a mut dyn Subject,
    report: Report,
    kept: Kept,
    /// The finder of the last sheet that was accepted.
    foreign: Vec<u32>,
}

impl<'a> Runner<'a> {
    fn new(subject: &'a mut dyn Subject, folder: &Path) -> Self {
        let kept = Kept { folder: folder.to_path_buf(), shown: 0 };
        Self { subject, report: Report::default(), kept, foreign: Vec::new() }
    }

    /// One case in all its calls, swept if the judge's steps times the bytes are at most so many.
    fn case(&mut self, family: &str, label: &str, input: &[u8], seed: u64, swept: Option<u64>) {
        let judged = split(input).and_then(|(query, start)| {
            let sheet = &input[start..];
            Some((bounded(|| judged(sheet, &query))?, query, sheet))
        });
        let Some(((judged, steps), query, sheet)) = judged else {
            self.report.passed_over += 1;
            return;
        };
        self.report.cases += 1;
        let swept = swept.is_some_and(|most| steps * sheet.len() as u64 <= most);
        let mut case = Case { family, label, input, sheet, query, judged, shown: false };
        let mut rng = Rng::new(seed ^ 0xd1ff);
        self.plans(&mut case, swept, &mut rng);
        let own = case.judged.stated.own.clone();
        // A refused sheet has no finder of its own.
        let places = own.clone().unwrap_or_else(|| any_places(&mut rng, 5));
        self.openings(&mut case, &places, swept, &mut rng);
        self.plans_with_finders(&mut case, &places, swept, &mut rng);
        self.foreign = own.unwrap_or(replace(&mut self.foreign, Vec::new()));
    }

    /// Room enough, then any room; of a swept case every size around its need.
    fn plans(&mut self, case: &mut Case, swept: bool, rng: &mut Rng) {
        let mut sizes = vec![size(&case.judged, true, rng), size(&case.judged, false, rng)];
        if swept {
            sizes.extend(swept_sizes(&case.judged));
        }
        for (output, counts, marks) in sizes {
            self.plan(case, case.family, lend(rng, output, counts, marks));
        }
    }

    /// Lists of every length's kind; of a swept case with few records every length up to two more than needed.
    fn openings(&mut self, case: &mut Case, places: &[u32], swept: bool, rng: &mut Rng) {
        for room in ROOMS {
            self.open(case, room, list(room, places.len(), rng));
        }
        if swept && places.len() <= SWEPT_PLACES {
            for length in 0..=places.len() + 2 {
                self.open(case, Room::Any, any_places(rng, length));
            }
        }
    }

    /// The own finder with room enough, then a finder of each kind with any room; of a swept case with few records every
    /// shorter finder, and each place off by one.
    fn plans_with_finders(&mut self, case: &mut Case, places: &[u32], swept: bool, rng: &mut Rng) {
        let foreign = replace(&mut self.foreign, Vec::new());
        let maker = Maker { own: places, sheet: case.sheet, foreign: &foreign };
        let mut finders = vec![(Kind::Own, places.to_vec())];
        finders.extend(KINDS.map(|kind| (kind, maker.make(kind, rng))));
        if swept && places.len() <= SWEPT_PLACES {
            finders.extend(maker.sweep());
        }
        for (at, (kind, finder)) in finders.into_iter().enumerate() {
            let (output, counts, marks) = size(&case.judged, at == 0, rng);
            let lent = Lent { finder: Some(finder), ..lend(rng, output, counts, marks) };
            self.plan(case, &format!("{kind:?}"), lent);
        }
        self.foreign = foreign;
    }

    fn plan(&mut self, case: &mut Case, row: &str, before: Lent) {
        let (answer, after) = guarded::plan(self.subject, case.sheet, &case.query, &before);
        let entry = if before.finder.is_some() { Entry::PlanWithFinder } else { Entry::Plan };
        self.report.add(entry, row, answer.number);
        if answer.number == 13 {
            self.report.add_turned_away(case.judged.number_without_finder(&before));
        }
        let fault = match after {
            None => Some("a byte that was not lent for writing has changed".to_string()),
            Some(after) => fault(&case.judged, answer, &before, &after, &mut self.report.zeros),
        };
        self.note(case, fault.map(|fault| format!("{entry:?}, {row}: {fault}")));
    }

    fn open(&mut self, case: &mut Case, room: Room, before: Vec<u32>) {
        let (answer, after) = guarded::open(self.subject, case.sheet, &before);
        self.report.add(Entry::Open, &format!("{room:?}"), answer.number);
        let fault = match after {
            None => Some("opening: a byte that was not lent for writing has changed".to_string()),
            Some(after) => opening_fault(&case.judged, answer, &before, &after),
        };
        self.note(case, fault);
    }

    /// Of each case the first difference is shown.
    fn note(&mut self, case: &mut Case, fault: Option<String>) {
        if let Some(fault) = fault {
            self.report.differences += 1;
            if !replace(&mut case.shown, true) {
                self.kept.show(case.family, case.label, case.input, &fault);
            }
        }
    }
}

impl Judged {
    /// What the same call answers without a finder.
    fn number_without_finder(&self, lent: &Lent) -> u32 {
        match (self.refusal, self.stated.needed) {
            (Some(refusal), _) => refusal.number,
            (None, Some((_, counts, marks))) if lent.counts.len() < counts || lent.marks.len() < marks => 11,
            (None, Some((tape, ..))) if lent.output.len() < tape => 12,
            _ => 0,
        }
    }
}

/// Every file of a folder, as a fuzzer leaves them; with every size where that is soon done.
pub fn run_files(subject: &mut dyn Subject, files: &Path, folder: &Path) -> Report {
    let mut runner = Runner::new(subject, folder);
    let mut names: Vec<PathBuf> = fs::read_dir(files).expect("a folder").map(|entry| entry.unwrap().path()).collect();
    names.sort();
    for (place, name) in names.iter().enumerate() {
        let input = fs::read(name).expect("a file");
        runner.case("files", &name.display().to_string(), &input, place as u64, Some(SWEPT_WORK));
    }
    runner.report
}

/// So many slanted sheets from a seed on: what `oracle slanted` measures of the judge's plans, the library lists as well.
pub fn run_slanted(subject: &mut dyn Subject, count: u64, seed: u64, folder: &Path) -> Report {
    let mut runner = Runner::new(subject, folder);
    for seed in seed..seed + count {
        runner.case("within Paper 14", &format!("seed {seed}"), &slanted::make(seed), seed, None);
    }
    runner.report
}

/// Every stored case with every size, every large case, and `count` fresh ones from a seed on, family by family.
pub fn run(subject: &mut dyn Subject, count: u64, seed: u64, folder: &Path) -> Report {
    let mut runner = Runner::new(subject, folder);
    for (place, entry) in entries().iter().enumerate() {
        runner.case("stored", &format!("{} {}", entry.family, entry.label), &entry.input, place as u64, Some(u64::MAX));
    }
    for large in large::all() {
        let label = format!("{} {}", large.name, large.seed);
        runner.case("large", &label, &make_large(&large), large.seed, None);
    }
    for place in 0..count {
        let family = &FAMILIES[(place % FAMILIES.len() as u64) as usize];
        let seed = seed + place / FAMILIES.len() as u64;
        let label = format!("seed {seed}");
        let swept = (place % SWEPT == 0).then_some(u64::MAX);
        runner.case(family.name, &label, &make(family, seed), seed, swept);
    }
    runner.report
}
