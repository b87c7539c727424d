//! The static library of the Rattle planner as a subject: `scene_plan`, `scene_open` and `scene_plan_with_finder` of
//! crates/planner_c, `sheet_check` of crates/check_sheet_c.

use crate::answer::Answer;
use crate::harness::{Slices, Subject};
use crate::sheet::Query;

unsafe extern "C" {
    fn scene_plan(
        sheet: *const u8,
        sheet_length: usize,
        root: u32,
        depth: u32,
        min_x: f64,
        min_y: f64,
        max_x: f64,
        max_y: f64,
        zoom: f64,
        hidden: *const u32,
        hidden_length: usize,
        out: *mut u8,
        out_length: usize,
        counts: *mut u64,
        counts_length: usize,
        marks: *mut u8,
        marks_length: usize,
        offset: *mut usize,
        length: *mut usize,
    ) -> u32;

    fn scene_plan_with_finder(
        sheet: *const u8,
        sheet_length: usize,
        finder: *const u32,
        finder_length: usize,
        root: u32,
        depth: u32,
        min_x: f64,
        min_y: f64,
        max_x: f64,
        max_y: f64,
        zoom: f64,
        hidden: *const u32,
        hidden_length: usize,
        out: *mut u8,
        out_length: usize,
        counts: *mut u64,
        counts_length: usize,
        marks: *mut u8,
        marks_length: usize,
        offset: *mut usize,
        length: *mut usize,
    ) -> u32;

    fn scene_open(
        sheet: *const u8,
        sheet_length: usize,
        finder: *mut u32,
        finder_length: usize,
        offset: *mut usize,
        places: *mut usize,
    ) -> u32;

    fn sheet_check(sheet: *const u8, sheet_length: usize, offset: *mut usize) -> u32;
}

pub struct Library;

/// An offset that the judge's type cannot hold is a difference, whatever it is.
fn answer(number: u32, offset: usize, length: usize) -> Answer {
    Answer { number, offset: offset.try_into().unwrap_or(u32::MAX), length: length as u64 }
}

// SAFETY of the calls below: a Rattle slice is its address and its length; these are Rust's own slices, apart from each
// other.
impl Subject for Library {
    fn plan(&mut self, sheet: &[u8], query: &Query, lent: Slices) -> Answer {
        let Query { root, depth, view: [min_x, min_y, max_x, max_y], zoom, ref hidden } = *query;
        let Slices { finder, output, counts, marks } = lent;
        let (mut offset, mut length) = (usize::MAX, usize::MAX);
        // What both functions take, after the sheet and the finder.
        macro_rules! planned_by {
            ($function:ident, $($finder:expr),*) => {
                unsafe {
                    $function(
                        sheet.as_ptr(), sheet.len(), $($finder,)* root, depth, min_x, min_y, max_x, max_y, zoom,
                        hidden.as_ptr(), hidden.len(), output.as_mut_ptr(), output.len(), counts.as_mut_ptr(),
                        counts.len(), marks.as_mut_ptr(), marks.len(), &mut offset, &mut length,
                    )
                }
            };
        }
        let number = match finder {
            None => planned_by!(scene_plan,),
            Some(finder) => planned_by!(scene_plan_with_finder, finder.as_ptr(), finder.len()),
        };
        answer(number, offset, length)
    }

    fn open(&mut self, sheet: &[u8], list: &mut [u32]) -> Answer {
        let (mut offset, mut places) = (usize::MAX, usize::MAX);
        let number = unsafe {
            scene_open(sheet.as_ptr(), sheet.len(), list.as_mut_ptr(), list.len(), &mut offset, &mut places)
        };
        answer(number, offset, places)
    }
}

/// Questions 1 to 7 alone: the number and the offset of the first no, or 0 and 0.
pub fn check(sheet: &[u8]) -> (u32, usize) {
    let mut offset = usize::MAX;
    // SAFETY: the function only reads the slice that is lent, and writes the offset.
    let number = unsafe { sheet_check(sheet.as_ptr(), sheet.len(), &mut offset) };
    (number, offset)
}
