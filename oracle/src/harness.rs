//! Differential runs at the level of one call: the answer, and every lent byte after it.
//!
//! A planner under test is a `Subject`: the judge itself, with a planted mistake or without, or the static library of
//! the Rattle planner (`library.rs`), which `differential.rs` runs over every family.

use std::collections::BTreeMap;

use crate::answer::{Answer, Judge, Lent, PlanFn};
use crate::finders::{KINDS, Maker, ROOMS, any_places, list};
use crate::generator::full::last_listed;
use crate::generator::rng::Rng;
use crate::generator::{FAMILIES, Family, make};
use crate::judge::program::split;
use crate::sheet::Query;
use crate::stated::{Stated, stated};
use crate::variants::{JUDGE, checked};

/// What is lent to one call that plans. The finder is only read, but a faulty subject may write it.
pub struct Slices<'a> {
    pub finder: Option<&'a mut [u32]>,
    pub output: &'a mut [u8],
    pub counts: &'a mut [u64],
    pub marks: &'a mut [u8],
}

/// The calls of a planner: nothing but the lent slices may change.
pub trait Subject {
    /// Plans, with a finder where one is lent.
    fn plan(&mut self, sheet: &[u8], query: &Query, lent: Slices) -> Answer;
    fn open(&mut self, sheet: &[u8], list: &mut [u32]) -> Answer;
}

/// The judge as a subject, with a planted mistake or without.
pub struct Oracle {
    pub plan: PlanFn,
    pub judge: Judge,
}

impl Subject for Oracle {
    fn plan(&mut self, sheet: &[u8], query: &Query, lent: Slices) -> Answer {
        let mut own = Lent {
            finder: lent.finder.as_ref().map(|finder| finder.to_vec()),
            output: lent.output.to_vec(),
            counts: lent.counts.to_vec(),
            marks: lent.marks.to_vec(),
        };
        let answer = (self.judge.call)(self.plan, sheet, query, &mut own);
        if let Some((finder, own)) = lent.finder.zip(own.finder) {
            finder.copy_from_slice(&own);
        }
        lent.output.copy_from_slice(&own.output);
        lent.counts.copy_from_slice(&own.counts);
        lent.marks.copy_from_slice(&own.marks);
        answer
    }

    fn open(&mut self, sheet: &[u8], list: &mut [u32]) -> Answer {
        (self.judge.open)(sheet, list)
    }
}

/// The library's functions that are called.
#[derive(Clone, Copy, Debug, PartialEq, Eq, PartialOrd, Ord)]
pub enum Entry {
    Plan,
    Open,
    PlanWithFinder,
}

#[derive(Default)]
pub struct Tally {
    pub calls: u64,
    /// Calls whose answer or memory differs from the judge's.
    pub differences: u64,
    /// Calls whose answer or memory is not as the papers' sentences say, whatever the judge does.
    pub broken: u64,
    pub first: Option<String>,
    /// Calls by the number that was answered.
    pub numbers: BTreeMap<(Entry, u32), u64>,
}

impl Tally {
    /// Counts one call, by what the judge answers; of the first fault, what it is.
    fn add(&mut self, case: &str, entry: Entry, number: u32, is_so: bool, difference: Option<String>) {
        self.calls += 1;
        *self.numbers.entry((entry, number)).or_default() += 1;
        if !is_so {
            self.broken += 1;
            self.first.get_or_insert(format!("{case}, {entry:?}: answer or memory not as stated, the judge has {number}"));
        }
        if let Some(difference) = difference {
            self.differences += 1;
            self.first.get_or_insert(format!("{case}, {entry:?}: {difference}"));
        }
    }
}

/// A size at or around the one that is needed.
pub fn around(rng: &mut Rng, needed: usize) -> usize {
    match rng.below(8) {
        0 => needed.saturating_sub(1),
        1 => needed + 1,
        2 => needed + rng.size(0, 40),
        3 => rng.size(0, needed),
        _ => needed,
    }
}

/// Bytes at random, none of them 0.
fn any_bytes(rng: &mut Rng, count: usize) -> Vec<u8> {
    let mut bytes = Vec::with_capacity(count + 8);
    while bytes.len() < count {
        bytes.extend((rng.next() | 0x0101_0101_0101_0101).to_le_bytes());
    }
    bytes.truncate(count);
    bytes
}

/// Memory of those sizes, filled so that each place can be told from zero and from its neighbour.
pub fn lend(rng: &mut Rng, output: usize, counts: usize, marks: usize) -> Lent {
    Lent {
        finder: None,
        output: any_bytes(rng, output),
        counts: (0..counts).map(|_| rng.next() | 1).collect(),
        marks: any_bytes(rng, marks),
    }
}

/// The first place at which two slices of one length differ.
fn unlike<T: PartialEq>(name: &str, own: &[T], other: &[T]) -> Option<String> {
    own.iter().zip(other).position(|(a, b)| a != b).map(|at| format!("{name} differs at place {at}"))
}

fn answers_unlike(expected: Answer, answered: Answer) -> Option<String> {
    (expected != answered).then(|| format!("answers {answered:?}, expected {expected:?}"))
}

fn lent_unlike(own: &Lent, other: &Lent) -> Option<String> {
    let finder = |lent: &Lent| lent.finder.clone().unwrap_or_default();
    unlike("output", &own.output, &other.output)
        .or_else(|| unlike("counts", &own.counts, &other.counts))
        .or_else(|| unlike("marks", &own.marks, &other.marks))
        .or_else(|| unlike("finder", &finder(own), &finder(other)))
}

/// The run of one subject over generated cases: each is planned, opened, and planned with a finder, on equal memory with
/// the judge.
struct Run<'a> {
    subject: &'a mut dyn Subject,
    tally: Tally,
    /// The finder of the last sheet that was accepted.
    foreign: Vec<u32>,
}

impl Run<'_> {
    fn case(&mut self, name: &str, seed: u64, input: &[u8]) {
        let Some((query, start)) = split(input) else { return };
        let sheet = &input[start..];
        let case = format!("{name}, seed {seed}");
        let mut rng = Rng::new(seed ^ 0x1e47);
        let stated = stated(sheet, &query);
        self.plan(&case, sheet, &query, &stated, None, &mut rng);
        // A refused sheet has no finder of its own.
        let places = stated.own.clone().unwrap_or_else(|| any_places(&mut rng, 5));
        self.open(&case, sheet, &stated, list(rng.pick(&ROOMS), places.len(), &mut rng));
        let finder = Maker { own: &places, sheet, foreign: &self.foreign }.make(rng.pick(&KINDS), &mut rng);
        self.plan(&case, sheet, &query, &stated, Some(finder), &mut rng);
        if let Some(own) = stated.own {
            self.foreign = own;
        }
    }

    /// A sheet of 16,777,216 bytes, most records of which are as short as they can be: no fresh case has such offsets or so many
    /// places.
    fn largest_sheet(&mut self) {
        let input = last_listed(26);
        let (query, start) = split(&input).expect("a query");
        let sheet = &input[start..];
        let mut rng = Rng::new(0x1e47);
        let stated = stated(sheet, &query);
        let own = stated.own.clone().expect("a sound sheet");
        self.open("the largest sheet", sheet, &stated, any_places(&mut rng, own.len()));
        self.plan("the largest sheet", sheet, &query, &stated, Some(own), &mut rng);
    }

    fn plan(&mut self, case: &str, sheet: &[u8], query: &Query, stated: &Stated, finder: Option<Vec<u32>>, rng: &mut Rng) {
        let entry = if finder.is_some() { Entry::PlanWithFinder } else { Entry::Plan };
        let (tape, counts, marks) = stated.needed.unwrap_or((60, 9, 9));
        let sizes = (around(rng, tape), around(rng, counts), around(rng, marks));
        let before = Lent { finder, ..lend(rng, sizes.0, sizes.1, sizes.2) };
        let (mut own, mut other) = (before.clone(), before.clone());
        let expected = (JUDGE.call)(checked, sheet, query, &mut own);
        let answered = self.subject.plan(sheet, query, other.slices());
        let difference = answers_unlike(expected, answered).or_else(|| lent_unlike(&own, &other));
        self.tally.add(case, entry, expected.number, stated.is_so(answered, &before, &other), difference);
    }

    fn open(&mut self, case: &str, sheet: &[u8], stated: &Stated, before: Vec<u32>) {
        let (mut own, mut other) = (before.clone(), before.clone());
        let expected = (JUDGE.open)(sheet, &mut own);
        let answered = self.subject.open(sheet, &mut other);
        let difference = answers_unlike(expected, answered).or_else(|| unlike("the list", &own, &other));
        self.tally.add(case, Entry::Open, expected.number, stated.is_opened_so(answered, &before, &other), difference);
    }
}

impl Lent {
    pub fn slices(&mut self) -> Slices<'_> {
        Slices {
            finder: self.finder.as_deref_mut(),
            output: &mut self.output,
            counts: &mut self.counts,
            marks: &mut self.marks,
        }
    }
}

/// `count` cases from a seed on, family by family, and the largest sheet.
pub fn run(subject: &mut dyn Subject, seed: u64, count: u64) -> Tally {
    let mut run = Run { subject, tally: Tally::default(), foreign: Vec::new() };
    for (family, seed) in cases(seed, count) {
        run.case(family.name, seed, &make(family, seed));
    }
    run.largest_sheet();
    run.tally
}

/// The same up to the first difference, without fresh inputs of more than `most` bytes.
pub fn run_to_difference(subject: &mut dyn Subject, seed: u64, count: u64, most: usize) -> Tally {
    let mut run = Run { subject, tally: Tally::default(), foreign: Vec::new() };
    for (family, seed) in cases(seed, count) {
        let input = make(family, seed);
        if input.len() <= most {
            run.case(family.name, seed, &input);
        }
        if run.tally.differences > 0 {
            return run.tally;
        }
    }
    run.largest_sheet();
    run.tally
}

fn cases(seed: u64, count: u64) -> impl Iterator<Item = (&'static Family, u64)> {
    let families = FAMILIES.len() as u64;
    (0..count).map(move |place| (&FAMILIES[(place % families) as usize], seed + place / families))
}
