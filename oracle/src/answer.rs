//! The answers of the judge, and the shapes of its parts: what a planted mistake replaces has one of these types.

use std::time::Duration;

use crate::events::{Lists, Run, Settings};
use crate::sheet::{Query, Sheet};

/// A refusal: document 01's number and offset.
#[derive(Clone, Copy, Debug, PartialEq, Eq)]
pub struct Refusal {
    pub number: u32,
    pub offset: u32,
}

/// What a call of the library answers: number 0 for a plan or an opened sheet. The length of a plan is the tape's, with
/// number 12 that of the tape that did not fit, and 0 with every other number. The length of an opening is the number of
/// the sheet's places, with number 13 too, and 0 with numbers 1 to 7.
#[derive(Clone, Copy, Debug, Default, PartialEq, Eq)]
pub struct Answer {
    pub number: u32,
    pub offset: u32,
    pub length: u64,
}

/// What is lent to one call that plans, and its state after it.
#[derive(Clone, Debug, Default, PartialEq, Eq)]
pub struct Lent {
    /// None where the call plans without a finder. It is only read, which is compared as all else is.
    pub finder: Option<Vec<u32>>,
    pub output: Vec<u8>,
    pub counts: Vec<u64>,
    pub marks: Vec<u8>,
}

/// What the program printed, and the run behind it where there was one.
pub struct Outcome {
    pub text: Vec<u8>,
    pub end: End,
    pub sheet: Option<Sheet>,
    pub query: Option<Query>,
    pub run: Option<Run>,
}

impl Outcome {
    /// How many proxies the plan dropped.
    pub fn dropped(&self) -> u64 {
        self.run.as_ref().map_or(0, |run| run.record.dropped)
    }
}

#[derive(Clone, Copy, Debug, PartialEq, Eq)]
pub enum End {
    TooLong,
    NoQuery,
    Refused(Refusal),
    Planned,
}

/// Plans an accepted sheet and query.
pub type PlanFn = fn(&Sheet, &Query, Settings) -> Run;
/// The same, as the plain copy answers it.
pub type ListsFn = fn(&Sheet, &Query) -> Lists;
/// Times of the plain copy: preparing the library, and `plan` on it.
pub type TimedFn = fn(&Sheet, &Query) -> [Duration; 2];
/// Counts of cells at depths, asked of one planner in turn.
pub type UnitsFn = fn(&Sheet, &[(u32, u32)]) -> Vec<u64>;
/// What `plan` prints for an input, with the size of the program's input buffer.
pub type ProgramFn = fn(PlanFn, &[u8], usize) -> Outcome;
/// One call of the library that plans: the answer, and what was lent after it.
pub type CallFn = fn(PlanFn, &[u8], &Query, &mut Lent) -> Answer;
/// One call of the library that opens a sheet into a lent list.
pub type OpenFn = fn(&[u8], &mut [u32]) -> Answer;

#[derive(Clone, Copy)]
pub struct Judge {
    pub program: ProgramFn,
    pub call: CallFn,
    pub open: OpenFn,
}

/// The copies that build.rs makes. A planted copy has the mistake that is switched on.
#[derive(Clone, Copy)]
pub struct Copies {
    pub plain: ListsFn,
    pub timed: TimedFn,
    pub draw_units: UnitsFn,
    pub instrumented: PlanFn,
    pub planted: PlanFn,
    pub planted_judge: Judge,
}
