//! The papers' sentences on answers and memory, said of one call by themselves, whatever the judge's calls do: document
//! 01's "Before a plan" and document 02's Paper 1.

use crate::answer::{Answer, Lent};
use crate::judge::{call::plan, reader};
use crate::sheet::Query;
use crate::variants::checked;

/// What an input calls for.
pub struct Stated {
    /// The places of the sheet's own finder; none where questions 1 to 7 refuse.
    pub own: Option<Vec<u32>>,
    /// The tape's bytes, the counts and the marks; none where questions 1 to 10 refuse.
    pub needed: Option<(usize, usize, usize)>,
}

/// "cells x depth 64-bit places, and the marks scratch cells x (depth + 2) bytes"
pub fn stated(sheet: &[u8], query: &Query) -> Stated {
    let needed = plan(checked, sheet, query).ok().map(|(sheet, _, tape)| {
        let (cells, depth) = (sheet.cells.len(), query.depth as usize);
        (tape.len(), cells * depth, cells * (depth + 2))
    });
    let accepted = needed.is_some() || reader::open(sheet).is_ok();
    Stated { own: accepted.then(|| places(sheet)), needed }
}

/// "the offset of every record, by kind and then by number": kind by kind, a walk for each.
fn places(sheet: &[u8]) -> Vec<u32> {
    let mut places = Vec::new();
    for kind in 1..=5u16 {
        let mut rest = sheet;
        while let [a, b, c, d, low, high, ..] = *rest {
            if u16::from_le_bytes([low, high]) == kind {
                places.push((sheet.len() - rest.len()) as u32);
            }
            rest = &rest[u32::from_le_bytes([a, b, c, d]) as usize..];
        }
    }
    places
}

fn zero<T: Copy + Default + PartialEq>(lent: &[T]) -> bool {
    lent.iter().all(|&place| place == T::default())
}

impl Stated {
    /// "13: the finder is short or, when planning, differs from the sheet's; asked after 6"
    pub fn turns_away(&self, lent: &Lent) -> bool {
        lent.finder.as_ref().zip(self.own.as_ref()).is_some_and(|(finder, own)| !finder.starts_with(own))
    }

    /// One call that plans, with a finder or without.
    pub fn is_so(&self, answer: Answer, before: &Lent, after: &Lent) -> bool {
        if self.turns_away(before) {
            return answer == (Answer { number: 13, offset: 0, length: 0 })
                && after.finder == before.finder
                && zero(&after.output)
                && zero(&after.counts)
                && zero(&after.marks);
        }
        let Some((tape, counts, marks)) = self.needed else {
            return (1..=10).contains(&answer.number) && after == before;
        };
        if before.counts.len() < counts || before.marks.len() < marks {
            return answer == (Answer { number: 11, offset: 0, length: 0 }) && after == before;
        }
        let scratch = zero(&after.counts[..counts])
            && zero(&after.marks[..marks])
            && after.counts[counts..] == before.counts[counts..]
            && after.marks[marks..] == before.marks[marks..];
        let unwritten = scratch && after.finder == before.finder;
        if before.output.len() < tape {
            // The length that would have been enough, for a caller to lend.
            return answer == (Answer { number: 12, offset: 0, length: tape as u64 }) && unwritten && zero(&after.output);
        }
        let past = after.output[tape..] == before.output[tape..];
        answer == (Answer { number: 0, offset: 0, length: tape as u64 }) && unwritten && past
    }

    /// One call that opens the sheet into a lent list.
    pub fn is_opened_so(&self, answer: Answer, before: &[u32], after: &[u32]) -> bool {
        let Some(own) = &self.own else {
            return (1..=7).contains(&answer.number) && answer.length == 0 && after == before;
        };
        let length = own.len() as u64;
        if before.len() < own.len() {
            return answer == (Answer { number: 13, offset: 0, length }) && zero(after);
        }
        let (filled, past) = after.split_at(own.len());
        answer == (Answer { number: 0, offset: 0, length }) && filled == own && *past == before[own.len()..]
    }
}
