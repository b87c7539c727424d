//! Paper 14 on one plan: each record of a text or a node point against the exact placement of the path at which it was emitted.

use super::bounds::{MOST_MEMBERS, MOST_REFERENCES, allowed, of_position};
use super::fraction::{Fraction, farther};
use super::paths::{Reached, follow};
use super::placement::Placement;
use crate::events::{Event, Run, Step};
use crate::sheet::{Query, Reference, Sheet, Source};

/// What one record shows.
pub struct Seen {
    pub references: usize,
    /// How far it is from the exact placement, in the coordinate where it is farther.
    pub error: Fraction,
    pub features: Vec<&'static str>,
}

/// What the records of at most four references must show in a long run.
pub const FEATURES: [&str; 12] = [
    "a text of a cell",
    "a text that a reference holds",
    "a point of a cell",
    "a point that a reference holds",
    "an inner reference",
    "a reflection",
    "column 1,023",
    "row 1,023",
    "a magnification of 0",
    "a subnormal number",
    "large terms that cancel",
    "a position that is not exact",
];

/// The records in their order, or what is wrong with the first that has a fault.
pub fn records(sheet: &Sheet, query: &Query, run: &Run) -> Result<Vec<Seen>, String> {
    let mut seen = Vec::new();
    for (event, path) in run.record.events.iter().zip(&run.record.paths) {
        let (Event::Text { position, .. } | Event::Point { position, .. }) = event else { continue };
        let reached = follow::<Fraction>(sheet, query.root, path).filter(|reached| reached.is_listed_by(sheet, event));
        let Some(reached) = reached else { return Err(format!("{event:?} is not what {path:?} leads to")) };
        if position.iter().any(|value| !value.is_finite()) {
            return Err(format!("{event:?} at {path:?} is no fraction"));
        }
        let error = farther(position, &reached.position);
        let references = reached.references.len();
        for (limit, what) in limits(references) {
            if error > limit {
                return Err(format!("{event:?} at {path:?} is {} off, above {what}", error.decimal(12)));
            }
        }
        let features = features(sheet, path, &reached, !error.is_zero());
        seen.push(Seen { references, error, features });
    }
    Ok(seen)
}

/// What an error must not exceed: "within 1/64 unit" up to four references, and the bound of each number of references.
fn limits(references: usize) -> impl Iterator<Item = (Fraction, &'static str)> {
    let asked = (references <= MOST_REFERENCES).then(|| (allowed(), "1/64"));
    asked.into_iter().chain([(of_position(references), "the bound of its references")])
}

/// The root's own reference moves by more than 2^30, and yet the position is within 2^25.
fn cancels(sheet: &Sheet, path: &[Step], reached: &Reached<Fraction>) -> bool {
    let (Some(&number), Some(Step::Member(column, row))) = (reached.references.first(), path.get(1)) else { return false };
    let moved = Placement::<f64>::member(&sheet.references[number as usize], *column, *row).point(&[0.0; 2]);
    let is_far = moved.iter().any(|value| value.abs() > 2f64.powi(30));
    is_far && reached.position.iter().all(|value| value.distance(&Fraction::default()) <= Fraction::over(1 << 25, 0))
}

fn features(sheet: &Sheet, path: &[Step], reached: &Reached<Fraction>, is_inexact: bool) -> Vec<&'static str> {
    let is_member = |step: &Step| matches!(step, Step::Member(..));
    let has = |is: fn(&Reference) -> bool| reached.references.iter().any(|&number| is(&sheet.references[number as usize]));
    let last = u32::from(MOST_MEMBERS) - 1;
    let is_point = matches!(path.last(), Some(Step::Point(_)));
    let holder = &path[..path.len() - usize::from(is_point)];
    let is_held = holder.last().is_some_and(is_member);
    let shown = [
        !is_point && !is_held,
        !is_point && is_held,
        is_point && !is_held,
        is_point && is_held,
        has(|reference| matches!(reference.source, Source::Reference(_))),
        has(|reference| reference.reflection),
        path.iter().any(|step| matches!(step, Step::Member(column, _) if *column == last)),
        path.iter().any(|step| matches!(step, Step::Member(_, row) if *row == last)),
        has(|reference| reference.magnification == 0.0),
        has(|r| [r.cos, r.sin, r.magnification].iter().chain(&r.origin).any(|value| value.is_subnormal())),
        cancels(sheet, path, reached),
        is_inexact,
    ];
    FEATURES.into_iter().zip(shown).filter(|feature| feature.1).map(|feature| feature.0).collect()
}
