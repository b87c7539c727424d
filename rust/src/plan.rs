//! A plan: the tape that the library wrote, and its records.

use std::fmt;
use std::iter::FusedIterator;

use crate::record::length;
use crate::{Record, Records, Totals};

/// A plan: its tape, in the memory that was lent.
#[derive(Clone, Copy, PartialEq, Eq)]
pub struct Plan<'a> {
    tape: &'a [u8],
}

impl<'a> Plan<'a> {
    pub(crate) fn new(tape: &'a [u8]) -> Self {
        Self { tape }
    }

    /// The records as bytes, to store or to send. [`Records`] reads them again.
    pub fn tape(&self) -> &'a [u8] {
        self.tape
    }

    /// The records in the order in which they are listed, totals last.
    ///
    /// They are no `Result`s, since the library is proved to write a whole tape.
    ///
    /// # Panics
    ///
    /// The iterator panics at a record that it does not know, which only a library of another version can write.
    pub fn records(&self) -> PlanRecords<'a> {
        PlanRecords {
            records: Records::new(self.tape),
        }
    }

    /// The last record, read without a walk over the others.
    ///
    /// # Panics
    ///
    /// If the tape does not end with totals, as every plan is proved to.
    pub fn totals(&self) -> Totals {
        let end: Option<&[u8; length::TOTALS]> = self.tape.last_chunk();
        match end.and_then(|totals| Records::new(totals).next()) {
            Some(Ok(Record::Totals(totals))) => totals,
            _ => panic!("the linked library wrote a tape without totals at its end"),
        }
    }
}

/// The tape's length: it may have megabytes.
impl fmt::Debug for Plan<'_> {
    fn fmt(&self, f: &mut fmt::Formatter) -> fmt::Result {
        f.debug_struct("Plan")
            .field("tape", &self.tape.len())
            .finish()
    }
}

/// The records of a [`Plan`].
#[derive(Clone, Debug)]
pub struct PlanRecords<'a> {
    records: Records<'a>,
}

impl Iterator for PlanRecords<'_> {
    type Item = Record;

    fn next(&mut self) -> Option<Record> {
        self.records.next().map(|record| match record {
            Ok(record) => record,
            Err(damaged) => panic!("the linked library wrote a tape that is not whole: {damaged}"),
        })
    }
}

impl FusedIterator for PlanRecords<'_> {}

#[cfg(test)]
mod tests {
    use super::*;

    /// A tape with one text, and the totals.
    fn tape() -> Vec<u8> {
        let mut tape = vec![0; length::TEXT + length::TOTALS];
        (tape[0], tape[4]) = (length::TEXT as u8, 12);
        (tape[26], tape[30]) = (length::TOTALS as u8, 15);
        tape
    }

    #[test]
    fn a_whole_tape_is_read() {
        let tape = tape();
        assert_eq!(Plan::new(&tape).records().count(), 2);
        assert_eq!(Plan::new(&tape).totals(), Totals::default());
        assert_eq!(format!("{:?}", Plan::new(&tape)), "Plan { tape: 88 }");
    }

    #[test]
    #[should_panic(
        expected = "not whole: damaged at byte 26: a record's length is below 6 or reaches past the end"
    )]
    fn a_cut_tape_is_no_shorter_plan() {
        let tape = tape();
        Plan::new(&tape[..tape.len() - 1]).records().for_each(drop);
    }

    #[test]
    #[should_panic(expected = "without totals")]
    fn a_cut_tape_has_no_totals() {
        let tape = tape();
        Plan::new(&tape[..tape.len() - 1]).totals();
    }

    #[test]
    #[should_panic(expected = "without totals")]
    fn a_text_is_no_totals() {
        Plan::new(&tape()[..length::TEXT]).totals();
    }
}
