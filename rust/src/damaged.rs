//! Bytes that are no sheet or no tape: where, and why.

use std::error::Error;
use std::fmt;

/// The first place at which bytes are no sheet or no tape.
#[derive(Clone, Copy, Debug, PartialEq, Eq)]
pub struct Damaged {
    /// Where the record that is at fault starts, or where one is missing.
    pub offset: usize,
    /// What is wrong there.
    pub why: Damage,
}

/// What is wrong with a record.
#[derive(Clone, Copy, Debug, PartialEq, Eq)]
#[non_exhaustive]
pub enum Damage {
    /// Fewer than the 6 bytes of a record's length and kind are left.
    CutHead,
    /// The length is below 6 or reaches past the end.
    Length,
    /// No record of a sheet, or of a tape, has this kind.
    Kind,
    /// The length is not one that the kind has.
    LengthForKind,
    /// A field of a sheet's record is out of its range: refusal 4.
    Value,
    /// A tape ends without its totals, so records may be missing.
    NoTotals,
    /// Bytes follow a tape's totals.
    AfterTotals,
}

impl fmt::Display for Damage {
    fn fmt(&self, f: &mut fmt::Formatter) -> fmt::Result {
        f.write_str(match self {
            Self::CutHead => "fewer than 6 bytes are left for a record's length and kind",
            Self::Length => "a record's length is below 6 or reaches past the end",
            Self::Kind => "a record has a kind that does not exist here",
            Self::LengthForKind => "a record's length is not one that its kind has",
            Self::Value => "a field is out of its range",
            Self::NoTotals => "the tape ends without its totals",
            Self::AfterTotals => "bytes follow the totals",
        })
    }
}

impl fmt::Display for Damaged {
    fn fmt(&self, f: &mut fmt::Formatter) -> fmt::Result {
        write!(f, "damaged at byte {}: {}", self.offset, self.why)
    }
}

impl Error for Damaged {}
