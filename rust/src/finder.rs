//! A sheet that is opened once, for many plans.

use std::fmt;

use crate::call::call_open;
use crate::{MOST_SHEET, Refusal};

/// The bytes of the least record: a text without a value, or a node of one point.
pub(crate) const LEAST_RECORD: usize = 26;

/// Where the records of a sheet stand: opened once, it serves every plan of that sheet.
///
/// It holds offsets only and does not borrow the sheet, so both can be kept in one struct. Each plan compares it with the
/// sheet that it is given: with any other than its own it is refused with number 13.
///
/// ```
/// use ribaltzen::{Buffers, Finder, Query, WorldBBox};
///
/// // A text on layer 1 at (0, 0).
/// let mut sheet = vec![26, 0, 0, 0, 2, 0, 1, 0, 0, 0];
/// sheet.extend([0; 16]);
/// let finder = Finder::open(&sheet)?;
/// let mut buffers = Buffers::new();
/// for zoom in [0.5, 1.0, 2.0] {
///     let query = Query::new(0, 1, WorldBBox::new(0.0, 0.0, 100.0, 100.0), zoom);
///     assert_eq!(buffers.plan_with_finder(&sheet, &finder, &query)?.records().count(), 1);
/// }
///
/// let other = [sheet.clone(), sheet].concat();
/// let query = Query::new(0, 1, WorldBBox::new(0.0, 0.0, 100.0, 100.0), 1.0);
/// assert_eq!(buffers.plan_with_finder(&other, &finder, &query).unwrap_err().number, 13);
/// # Ok::<(), ribaltzen::Refusal>(())
/// ```
#[derive(Clone, PartialEq, Eq)]
pub struct Finder {
    places: Vec<u32>,
}

impl Finder {
    /// Opens a sheet, or refuses it with one of the numbers 1 to 7, as a plan would.
    ///
    /// # Panics
    ///
    /// As [`crate::plan`] does.
    pub fn open(sheet: &[u8]) -> Result<Self, Refusal> {
        // Enough for any sheet of the length; a sheet that is too long is refused with any.
        let mut places = vec![0; sheet.len().min(MOST_SHEET) / LEAST_RECORD];
        let filled = call_open(sheet, &mut places)?;
        places.truncate(filled);
        places.shrink_to_fit();
        Ok(Self { places })
    }

    /// The offsets of the sheet's batches in order of number, then of its texts, nodes, references and cells.
    pub fn places(&self) -> &[u32] {
        &self.places
    }
}

/// The number of places: there may be hundreds of thousands.
impl fmt::Debug for Finder {
    fn fmt(&self, f: &mut fmt::Formatter) -> fmt::Result {
        f.debug_struct("Finder")
            .field("places", &self.places.len())
            .finish()
    }
}

/// Opens a sheet in a list that is lent: answers the sheet's own finder, the first part of the list; the rest stays as
/// lent. [`crate::MOST_PLACES`] are always enough, and so is the sheet's length / 26. [`Finder::open`] has memory of its own.
///
/// Refusals 1 to 7 leave the list as lent. A list with fewer places than the sheet has records is refused with 13, which
/// zeroes it and says how many are needed.
///
/// # Panics
///
/// As [`crate::plan`] does.
pub fn open<'a>(sheet: &[u8], places: &'a mut [u32]) -> Result<&'a [u32], Refusal> {
    let filled = call_open(sheet, places)?;
    Ok(&places[..filled])
}
