//! What a run counts: calls by function, by family or kind of list, and by answer.

use std::collections::BTreeMap;

use crate::finders::{KINDS, Kind, ROOMS};
use crate::harness::Entry;

/// The answers that a row counts: 0, numbers 1 to 13, and a number that no paper has.
const COLUMNS: usize = 15;

#[derive(Default)]
pub struct Report {
    /// Cases that were called, each with several sizes.
    pub cases: u64,
    /// Cases that were not called: without a query, or hostile.
    pub passed_over: u64,
    pub differences: u64,
    /// Tapes that are the judge's but for signs of zero, which document 01's comparison takes as equal.
    pub zeros: u64,
    /// By function, and by the family of a plan without a finder, the length of a list to open into, the kind of a finder.
    rows: BTreeMap<(Entry, String), [u64; COLUMNS]>,
    /// Calls with number 13, by what is answered without a finder.
    turned_away: [u64; COLUMNS],
}

fn column(number: u32) -> usize {
    (number as usize).min(COLUMNS - 1)
}

impl Report {
    pub fn add(&mut self, entry: Entry, name: &str, number: u32) {
        self.rows.entry((entry, name.to_string())).or_default()[column(number)] += 1;
    }

    pub fn add_turned_away(&mut self, without: u32) {
        self.turned_away[column(without)] += 1;
    }

    fn rows(&self, entry: Entry) -> impl Iterator<Item = (&str, &[u64; COLUMNS])> {
        self.rows.iter().filter(move |((other, _), _)| *other == entry).map(|((_, name), row)| (name.as_str(), row))
    }

    /// The calls of a function.
    pub fn calls(&self, entry: Entry) -> u64 {
        self.rows(entry).flat_map(|(_, row)| row).sum()
    }

    pub fn all_calls(&self) -> u64 {
        self.rows.values().flatten().sum()
    }

    fn answered(&self, entry: Entry, number: u32) -> bool {
        self.rows(entry).any(|(_, row)| row[column(number)] > 0)
    }

    /// A table for each function.
    pub fn table(&self) -> String {
        let mut text = String::new();
        for (entry, first) in [(Entry::Plan, "family"), (Entry::Open, "list"), (Entry::PlanWithFinder, "finder")] {
            text += &format!("{entry:?}: {} calls\n{first:<17}", self.calls(entry));
            (0..=13).for_each(|number| text += &format!("{number:>9}"));
            text.push('\n');
            for (name, row) in self.rows(entry) {
                text += &line(name, row);
            }
        }
        text + "13, by what is answered without a finder\n" + &line("", &self.turned_away)
    }

    /// What a whole run must have met, and has not: each answer of each function, each length of a list, each kind of
    /// finder, the own ones taken and the others turned away, and 13 before each number that is asked later.
    pub fn missing(&self) -> Vec<String> {
        let mut missing = Vec::new();
        let mut ask = |met: bool, what: String| if !met { missing.push(what) };
        let answers = [(Entry::Plan, 0..=12, None), (Entry::Open, 0..=7, Some(13)), (Entry::PlanWithFinder, 0..=13, None)];
        for (entry, numbers, last) in answers {
            numbers.chain(last).for_each(|number| ask(self.answered(entry, number), format!("{entry:?} answered with {number}")));
        }
        for room in ROOMS {
            let met = self.rows.contains_key(&(Entry::Open, format!("{room:?}")));
            ask(met, format!("a list to open into: {room:?}"));
        }
        for kind in KINDS {
            let number = if matches!(kind, Kind::Own | Kind::Long) { 0 } else { 13 };
            let row = self.rows.get(&(Entry::PlanWithFinder, format!("{kind:?}")));
            ask(row.is_some_and(|row| row[column(number)] > 0), format!("a finder answered with {number}: {kind:?}"));
        }
        for without in [0, 8, 9, 10, 11, 12] {
            ask(self.turned_away[column(without)] > 0, format!("13 where a plan without a finder has {without}"));
        }
        missing
    }
}

fn line(name: &str, row: &[u64; COLUMNS]) -> String {
    let mut text = format!("{name:<17}");
    row[..=13].iter().for_each(|count| text += &format!("{count:>9}"));
    if row[COLUMNS - 1] > 0 {
        text += &format!("   and {} of no paper's number", row[COLUMNS - 1]);
    }
    text + "\n"
}
