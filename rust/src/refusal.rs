//! A refusal: its number, the question that was answered "no", and where.

use std::error::Error;
use std::fmt;

/// Why there is no plan, or no finder. It is displayed as the number, the record, and the question that was answered "no".
#[derive(Clone, Copy, Debug, PartialEq, Eq)]
pub struct Refusal {
    /// The number of documents 01 and 02: 1 to 12, and 13 where a finder is lent.
    pub number: u32,
    /// For numbers 2 to 6 where the record at fault starts in the sheet, for the others 0.
    pub offset: usize,
    /// What would have been enough: after number 12 the bytes of output, after number 13 of [`crate::open`] the places
    /// of the finder. Else `None`.
    pub needed: Option<usize>,
}

impl Refusal {
    /// The question, in the words of docs/FORMATS.md.
    pub fn question(&self) -> &'static str {
        match self.number {
            1 => "Is the sheet at most 16,777,216 bytes?",
            2 => "Are 6 bytes left, and is the length at least 6 and within the sheet?",
            3 => "Is the kind 1 to 5, and the length right for it, a cell's counts included?",
            4 => {
                "Are columns and rows at most 32,767, spare flag bits 0, absent boxes 0, the source kind 1 to 5, a \
                 cell source below FFFFFFFF?"
            }
            5 => "Is every float finite?",
            6 => {
                "Does every number name a record that is there, and a reference source an earlier one?"
            }
            7 => "Are there at most 4,096 cells?",
            8 => "Is the view finite, min at most max?",
            9 => "Is zoom finite and above 0?",
            10 => "Is depth at most 48?",
            11 => "Are both scratch areas large enough?",
            12 => "Does the whole tape fit the lent output?",
            13 => "Is the finder long enough and, when planning, the sheet's own?",
            _ => "A question that this version does not know.",
        }
    }

    /// Whether the offset is that of a record.
    pub fn is_of_a_record(&self) -> bool {
        (2..=6).contains(&self.number)
    }
}

impl fmt::Display for Refusal {
    fn fmt(&self, f: &mut fmt::Formatter) -> fmt::Result {
        write!(f, "refused with number {}", self.number)?;
        if self.is_of_a_record() {
            write!(f, " at the record at byte {}", self.offset)?;
        }
        write!(f, ": {} No", self.question())?;
        match (self.number, self.needed) {
            (13, Some(needed)) => write!(f, ", the sheet has {needed} records")?,
            (_, Some(needed)) => write!(f, ", the tape has {needed} bytes")?,
            (_, None) => {}
        }
        f.write_str(".")
    }
}

impl Error for Refusal {}
