//! Calls on copies of what is lent, each between guards. The sheet, the hidden layers and the finder of a plan, which are
//! only read, lie in memory that could be written, and are compared too.

use std::hint::black_box;

use crate::answer::{Answer, Lent};
use crate::harness::{Slices, Subject};
use crate::sheet::Query;

/// Places on both sides of what is lent.
const GUARD: usize = 16;

/// A slice in the middle of its guards.
struct Guarded<T> {
    places: Vec<T>,
    guard: T,
}

impl<T: Copy + PartialEq> Guarded<T> {
    fn new(lent: &[T], guard: T) -> Self {
        Self { places: [&[guard; GUARD], lent, &[guard; GUARD]].concat(), guard }
    }

    fn lent(&mut self) -> &mut [T] {
        let end = self.places.len() - GUARD;
        &mut self.places[GUARD..end]
    }

    /// The slice, if both guards are as they were.
    fn back(self) -> Option<Vec<T>> {
        let end = self.places.len() - GUARD;
        let guards = [self.guard; GUARD];
        (self.places[..GUARD] == guards && self.places[end..] == guards).then(|| self.places[GUARD..end].to_vec())
    }
}

/// One call that plans: none if a byte around what was lent changed, or the sheet, or a hidden layer.
pub fn plan(subject: &mut dyn Subject, sheet: &[u8], query: &Query, lent: &Lent) -> (Answer, Option<Lent>) {
    let mut finder = lent.finder.as_ref().map(|finder| Guarded::new(finder, 0xa5a5_a5a5));
    let mut output = Guarded::new(&lent.output, 0xa5);
    let mut counts = Guarded::new(&lent.counts, 0xa5a5_a5a5_a5a5_a5a5);
    let mut marks = Guarded::new(&lent.marks, 0xa5);
    let (own_sheet, own_query) = (sheet.to_vec(), query.clone());
    let slices = Slices {
        finder: finder.as_mut().map(Guarded::lent),
        output: output.lent(),
        counts: counts.lent(),
        marks: marks.lent(),
    };
    let answer = subject.plan(&own_sheet, &own_query, slices);
    // The black box: else the compiler may take for granted that what is lent shared does not change.
    let as_read = *black_box(&own_sheet) == sheet && *black_box(&own_query.hidden) == query.hidden;
    let back = || {
        let finder = match finder {
            Some(finder) => Some(finder.back()?),
            None => None,
        };
        Some(Lent { finder, output: output.back()?, counts: counts.back()?, marks: marks.back()? })
    };
    (answer, back().filter(|_| as_read))
}

/// One call that opens a sheet: none if a place around the list changed, or the sheet.
pub fn open(subject: &mut dyn Subject, sheet: &[u8], list: &[u32]) -> (Answer, Option<Vec<u32>>) {
    let mut guarded = Guarded::new(list, 0xa5a5_a5a5);
    let own_sheet = sheet.to_vec();
    let answer = subject.open(&own_sheet, guarded.lent());
    let as_read = *black_box(&own_sheet) == sheet;
    (answer, guarded.back().filter(|_| as_read))
}
