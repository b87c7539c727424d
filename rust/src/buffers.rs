//! Memory that is lent to a call.

use std::fmt;

use crate::call::call;
use crate::record::length;
use crate::{Finder, MOST_CELLS, MOST_DEPTH, MOST_TAPE, Plan, Query, Refusal, Sheet};

/// Memory lent for one call. What it holds before does not matter. After a plan `out` holds the tape and is otherwise as
/// lent, and the named scratch, the first cells × depth `counts` and cells × (depth + 2) `marks`, is zero.
/// Refusals 1 to 11 leave all as lent; 12 zeroes `out` and the named scratch, 13 all of it.
pub struct Lent<'a> {
    /// Takes the tape; [`MOST_TAPE`] bytes are always enough.
    pub out: &'a mut [u8],
    /// Scratch: cells × depth places.
    pub counts: &'a mut [u64],
    /// Scratch: cells × (depth + 2) bytes.
    pub marks: &'a mut [u8],
}

/// Memory of one's own to lend, call after call.
pub struct Buffers {
    out: Vec<u8>,
    counts: Vec<u64>,
    marks: Vec<u8>,
}

impl Buffers {
    /// Enough for every sheet and query: some 7 MB.
    pub fn new() -> Self {
        Self::with_sizes(MOST_TAPE, MOST_CELLS, MOST_DEPTH)
    }

    /// Enough for tapes of so many bytes, and for sheets of so many cells at a depth. More than [`MOST_CELLS`] cells and
    /// depths above [`MOST_DEPTH`] count as these: a call past them is refused before its scratch is looked at.
    ///
    /// # Panics
    ///
    /// As a `Vec` does, if so long a tape cannot be allocated.
    pub fn with_sizes(tape: usize, cells: usize, depth: u32) -> Self {
        let cells = cells.min(MOST_CELLS);
        let depth = depth.min(MOST_DEPTH) as usize;
        Self {
            out: vec![0; tape],
            counts: vec![0; cells * depth],
            marks: vec![0; cells * (depth + 2)],
        }
    }

    /// The scratch that a sheet needs at a depth (a deeper query is refused with 11), and an output for one record of each
    /// of its items: planning makes it longer where grids list more.
    pub fn for_sheet(sheet: &Sheet, depth: u32) -> Self {
        // No sum can overflow: no item has a record of twice its bytes in the sheet.
        let points: usize = sheet.nodes().iter().map(|node| node.points().len()).sum();
        let tape = sheet.batches().len() * length::BATCH
            + sheet.texts().len() * length::TEXT
            + points * length::POINT
            + (sheet.references().len() + sheet.cells().len()) * length::PROXY
            + length::TOTALS;
        Self::with_sizes(tape.min(MOST_TAPE), sheet.cells().len(), depth)
    }

    /// Plans a sheet in this memory with the finder that was opened for it, the way for sheets of any size. Where the
    /// output is too short it is replaced by one that is enough and the sheet planned once more, so number 12 is not met.
    /// With the finder of another sheet, or of what the sheet was before a change, the call is refused with number 13,
    /// unless all records stand at the same places: then it is as good as the sheet's own.
    ///
    /// # Panics
    ///
    /// As [`crate::plan`] does.
    pub fn plan_with_finder(
        &mut self,
        sheet: &[u8],
        finder: &Finder,
        query: &Query,
    ) -> Result<Plan<'_>, Refusal> {
        self.plan_and_grow(sheet, Some(finder.places()), query)
    }

    /// The same plan without a finder. It walks the records for each number that it looks up, which is slow on large sheets.
    ///
    /// # Panics
    ///
    /// As [`crate::plan`] does.
    pub fn plan(&mut self, sheet: &[u8], query: &Query) -> Result<Plan<'_>, Refusal> {
        self.plan_and_grow(sheet, None, query)
    }

    fn plan_and_grow(
        &mut self,
        sheet: &[u8],
        finder: Option<&[u32]>,
        query: &Query,
    ) -> Result<Plan<'_>, Refusal> {
        let mut answer = call(sheet, finder, query, &mut self.lend());
        if let Err(Refusal {
            needed: Some(needed),
            ..
        }) = answer
        {
            self.out = vec![0; needed];
            answer = call(sheet, finder, query, &mut self.lend());
        }
        Ok(Plan::new(&self.out[..answer?]))
    }

    /// The memory for one call of [`crate::plan`] or [`crate::plan_with_finder`].
    pub fn lend(&mut self) -> Lent<'_> {
        Lent {
            out: &mut self.out,
            counts: &mut self.counts,
            marks: &mut self.marks,
        }
    }
}

impl Default for Buffers {
    fn default() -> Self {
        Self::new()
    }
}

/// The lengths: what the memory holds means nothing to a reader.
impl fmt::Debug for Lent<'_> {
    fn fmt(&self, f: &mut fmt::Formatter) -> fmt::Result {
        let lengths = [self.out.len(), self.counts.len(), self.marks.len()];
        fmt_lengths(f, "Lent", lengths)
    }
}

/// The lengths, as of [`Lent`].
impl fmt::Debug for Buffers {
    fn fmt(&self, f: &mut fmt::Formatter) -> fmt::Result {
        let lengths = [self.out.len(), self.counts.len(), self.marks.len()];
        fmt_lengths(f, "Buffers", lengths)
    }
}

fn fmt_lengths(
    f: &mut fmt::Formatter,
    name: &str,
    [out, counts, marks]: [usize; 3],
) -> fmt::Result {
    f.debug_struct(name)
        .field("out", &out)
        .field("counts", &counts)
        .field("marks", &marks)
        .finish()
}
