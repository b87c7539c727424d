//! The records of a tape from any bytes, with what is damaged in them.

use std::fmt;
use std::iter::FusedIterator;

use crate::fields::split_record;
use crate::{Damage, Damaged, Record};

/// The records of a tape in order, totals last.
///
/// A tape that is not whole ends in one [`Damaged`]: a record that is cut or is none, an end without totals, bytes after
/// them. So where no error was met, nothing is missing.
///
/// ```
/// use ribaltzen::{Damage, Records};
///
/// let mut records = Records::new(b""); // not even totals
/// assert_eq!(records.next().unwrap().unwrap_err().why, Damage::NoTotals);
/// assert_eq!(records.next(), None);
/// ```
#[derive(Clone)]
pub struct Records<'a> {
    tape: &'a [u8],
    rest: &'a [u8],
    totals_seen: bool,
    ended: bool,
}

impl<'a> Records<'a> {
    /// The records of a tape that was stored or sent. For one that was just planned see [`crate::Plan::records`]. One
    /// that a version before 0.6 wrote is damaged at its totals, which had six counts.
    pub fn new(tape: &'a [u8]) -> Self {
        Self {
            tape,
            rest: tape,
            totals_seen: false,
            ended: false,
        }
    }

    /// Where the next record starts.
    fn offset(&self) -> usize {
        self.tape.len() - self.rest.len()
    }

    /// The next record, if the tape goes on, as it must until the totals.
    fn read(&mut self) -> Result<Option<Record>, Damage> {
        match (self.totals_seen, self.rest.is_empty()) {
            (true, true) => return Ok(None),
            (true, false) => return Err(Damage::AfterTotals),
            (false, true) => return Err(Damage::NoTotals),
            (false, false) => {}
        }
        let (kind, body, rest) = split_record(self.rest)?;
        let record = Record::read(kind, body)?;
        self.rest = rest;
        self.totals_seen = matches!(record, Record::Totals(_));
        Ok(Some(record))
    }
}

impl Iterator for Records<'_> {
    type Item = Result<Record, Damaged>;

    fn next(&mut self) -> Option<Self::Item> {
        if self.ended {
            return None;
        }
        let offset = self.offset();
        let read = self.read();
        self.ended = !matches!(read, Ok(Some(_)));
        read.map_err(|why| Damaged { offset, why }).transpose()
    }
}

impl FusedIterator for Records<'_> {}

/// The tape's length and the offset that is reached: the tape may have megabytes.
impl fmt::Debug for Records<'_> {
    fn fmt(&self, f: &mut fmt::Formatter) -> fmt::Result {
        f.debug_struct("Records")
            .field("tape", &self.tape.len())
            .field("offset", &self.offset())
            .finish()
    }
}
