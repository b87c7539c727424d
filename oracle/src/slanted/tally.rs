//! What a run over slanted sheets came to, and the tables that it prints.

use std::collections::BTreeMap;

use super::bounds::{MOST_REFERENCES, of_position};
use super::check::{FEATURES, Seen};
use super::fraction::Fraction;
use super::kinds::Kind;

/// The most references of a path that is tried.
pub const TRIED: usize = 6;
/// Digits after the point.
const DIGITS: u32 = 12;

#[derive(Default)]
pub struct Row {
    pub records: u64,
    pub inexact: u64,
    pub largest: Fraction,
    /// The sheet of the largest error.
    pub of: String,
}

impl Row {
    fn add(&mut self, seen: &Seen, of: &str) {
        self.records += 1;
        self.inexact += u64::from(!seen.error.is_zero());
        if seen.error > self.largest {
            self.largest = seen.error.clone();
            self.of = of.to_string();
        }
    }
}

#[derive(Default)]
pub struct Tally {
    pub sheets: u64,
    /// Sheets that list a text or a point, and sheets that list one at four references.
    pub listing: u64,
    pub listing_four: u64,
    /// Sheets that take too many steps.
    pub passed_over: u64,
    pub by_references: [Row; TRIED + 1],
    /// By kind: sheets, sheets that list something, and the records of at most four references.
    pub by_kind: BTreeMap<Kind, (u64, u64, Row)>,
    /// Records of at most four references by what they show.
    pub features: BTreeMap<&'static str, u64>,
    pub faults: u64,
    pub first: Option<String>,
}

impl Tally {
    pub fn add(&mut self, kind: Kind, of: &str, seen: &[Seen]) {
        self.sheets += 1;
        self.listing += u64::from(!seen.is_empty());
        self.listing_four += u64::from(seen.iter().any(|record| record.references == MOST_REFERENCES));
        let (sheets, listing, row) = self.by_kind.entry(kind).or_default();
        *sheets += 1;
        *listing += u64::from(!seen.is_empty());
        for record in seen {
            self.by_references[record.references].add(record, of);
            if record.references <= MOST_REFERENCES {
                row.add(record, of);
                record.features.iter().for_each(|&feature| *self.features.entry(feature).or_default() += 1);
            }
        }
    }

    /// What the run did not show: such a run says nothing. Features and kinds are asked of a long run.
    pub fn missing(&self, is_long: bool) -> Vec<String> {
        let mut missing = Vec::new();
        let mut ask = |is_met: bool, what: String| {
            if !is_met {
                missing.push(what);
            }
        };
        ask(2 * self.listing > self.sheets, "most sheets list a text or a point".to_string());
        ask(8 * self.listing_four > self.sheets, "one sheet in eight lists one at four references".to_string());
        ask(self.by_references[MOST_REFERENCES].inexact > 0, "a record at four references that is not exact".to_string());
        if is_long {
            FEATURES.iter().for_each(|feature| ask(self.features.contains_key(feature), feature.to_string()));
            for (references, row) in self.by_references.iter().enumerate() {
                let is_met = row.records > 0 && (row.inexact > 0) == (references > 0);
                ask(is_met, format!("records at {references} references, exact at 0 alone"));
            }
            let lists = |kind: &Kind| self.by_kind.get(kind).is_some_and(|(_, listing, row)| *listing > 0 && row.inexact > 0);
            Kind::ALL.iter().for_each(|kind| ask(lists(kind), format!("a record of {kind:?} that is not exact")));
        }
        missing
    }

    pub fn tables(&self) -> String {
        let mut text = format!(
            "{} sheets, {} list a text or a point, {} at four references; {} passed over\n",
            self.sheets, self.listing, self.listing_four, self.passed_over
        );
        text += "| references | records | not exact | largest error seen | of 1/64 | bound | of 1/64 | largest in |\n|---|---|---|---|---|---|---|---|\n";
        for (references, row) in self.by_references.iter().enumerate() {
            let (seen, bound) = (columns(&row.largest), columns(&of_position(references)));
            text += &format!("| {references} | {} | {} | {seen} | {bound} | {} |\n", row.records, row.inexact, row.of);
        }
        text += "| kind | sheets | that list | records, at most four references | largest error seen | of 1/64 | largest in |\n|---|---|---|---|---|---|---|\n";
        for (kind, (sheets, listing, row)) in &self.by_kind {
            text += &format!("| {kind:?} | {sheets} | {listing} | {} | {} | {} |\n", row.records, columns(&row.largest), row.of);
        }
        for (feature, records) in &self.features {
            text += &format!("{records:10} {feature}\n");
        }
        text
    }
}

/// A distance, and its share of 1/64.
fn columns(distance: &Fraction) -> String {
    let share = distance.times(&Fraction::over(64 * 100, 0));
    format!("{} | {} %", distance.decimal(DIGITS), share.decimal(3))
}
