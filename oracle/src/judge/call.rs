// The questions in their order, and one call of the library that plans: the answer, and every lent place after it.
// States document 01's "Before a plan" and document 02's Papers 1 and 13; the sizes that were lent are part of the question.

use super::{finder, reader, tape};
use crate::answer::{Answer, Lent, PlanFn, Refusal};
use crate::events::{Run, Settings};
use crate::sheet::{Query, Sheet};

/// "Only depth above 48 gets number 10": document 02's Paper 13.
pub const MAX_DEPTH: u32 = 48;

/// Questions 8 to 10.
pub fn check_query(query: &Query) -> Result<(), Refusal> {
    let refuse = |number| Err(Refusal { number, offset: 0 });
    let [min_x, min_y, max_x, max_y] = query.view;
    if !query.view.iter().all(|side| side.is_finite()) || !(min_x <= max_x && min_y <= max_y) {
        return refuse(8);
    }
    if !(query.zoom.is_finite() && query.zoom > 0.0) {
        return refuse(9);
    }
    if query.depth > MAX_DEPTH {
        return refuse(10);
    }
    Ok(())
}

/// Questions 1 to 7, then 13 where a finder is lent, then 8 to 10.
fn ask(bytes: &[u8], finder: Option<&[u32]>, query: &Query) -> Result<Sheet, Refusal> {
    let sheet = reader::open(bytes)?;
    if let Some(finder) = finder {
        finder::check(bytes, finder)?;
    }
    check_query(query)?;
    Ok(sheet)
}

/// Questions 1 to 10, then the plan and its tape.
pub fn plan(plan: PlanFn, sheet: &[u8], query: &Query) -> Result<(Sheet, Run, Vec<u8>), Refusal> {
    let sheet = ask(sheet, None, query)?;
    let run = plan(&sheet, query, Settings::DOCUMENT);
    let tape = tape::write(&run);
    Ok((sheet, run, tape))
}

/// The places of the scratch that a plan names: counts, and bytes of marks.
pub fn named_places(cells: usize, depth: u32) -> (usize, usize) {
    (cells * depth as usize, cells * (depth as usize + 2))
}

/// "Numbers from 13 on zero every lent output and all scratch": not only the named places. The finder is only read.
fn zero_all(lent: &mut Lent) {
    lent.output.fill(0);
    lent.counts.fill(0);
    lent.marks.fill(0);
}

/// One call of the library, with all that is lent to it: a finder too where the call plans with one.
pub fn call(plan: PlanFn, sheet: &[u8], query: &Query, lent: &mut Lent) -> Answer {
    let refused = |refusal: Refusal| Answer { number: refusal.number, offset: refusal.offset, length: 0 };
    let opened = match ask(sheet, lent.finder.as_deref(), query) {
        Ok(opened) => opened,
        Err(refusal) => {
            if refusal.number >= 13 {
                zero_all(lent);
            }
            return refused(refusal);
        }
    };
    let (counts, marks) = named_places(opened.cells.len(), query.depth);
    if lent.counts.len() < counts || lent.marks.len() < marks {
        return refused(Refusal { number: 11, offset: 0 });
    }
    let tape = tape::write(&plan(&opened, query, Settings::DOCUMENT));
    let length = tape.len() as u64;
    lent.counts[..counts].fill(0);
    lent.marks[..marks].fill(0);
    if tape.len() > lent.output.len() {
        lent.output.fill(0);
        return Answer { number: 12, offset: 0, length };
    }
    lent.output[..tape.len()].copy_from_slice(&tape);
    Answer { number: 0, offset: 0, length }
}
