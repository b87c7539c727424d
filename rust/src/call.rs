//! The calls of the library.

use crate::{Lent, Plan, Query, Refusal, float_environment_is_default};

// As include/ribaltzen.h declares them.
unsafe extern "C" {
    fn scene_open(
        sheet: *const u8,
        sheet_length: usize,
        finder: *mut u32,
        finder_length: usize,
        offset: *mut usize,
        places: *mut usize,
    ) -> u32;

    fn scene_plan(
        sheet: *const u8,
        sheet_length: usize,
        root: u32,
        depth: u32,
        min_x: f64,
        min_y: f64,
        max_x: f64,
        max_y: f64,
        zoom: f64,
        hidden: *const u32,
        hidden_length: usize,
        out: *mut u8,
        out_length: usize,
        counts: *mut u64,
        counts_length: usize,
        marks: *mut u8,
        marks_length: usize,
        offset: *mut usize,
        length: *mut usize,
    ) -> u32;

    fn scene_plan_with_finder(
        sheet: *const u8,
        sheet_length: usize,
        finder: *const u32,
        finder_length: usize,
        root: u32,
        depth: u32,
        min_x: f64,
        min_y: f64,
        max_x: f64,
        max_y: f64,
        zoom: f64,
        hidden: *const u32,
        hidden_length: usize,
        out: *mut u8,
        out_length: usize,
        counts: *mut u64,
        counts_length: usize,
        marks: *mut u8,
        marks_length: usize,
        offset: *mut usize,
        length: *mut usize,
    ) -> u32;
}

/// The number of refusal 12, after which the library gives the length that would have been enough.
const OUTPUT_TOO_SHORT: u32 = 12;
/// The number of refusal 13, after which opening gives the number of places that would have been enough.
const WRONG_FINDER: u32 = 13;

/// Plans a sheet with a finder: `finder` begins with what [`crate::open`] fills in for this sheet, or the call is refused with
/// 13, so it may be any list. It always answers, but a small hostile sheet can take very long.
///
/// The thread needs 192 KiB of stack left: no proof covers the stack.
///
/// # Panics
///
/// As [`plan`] does.
pub fn plan_with_finder<'a>(
    sheet: &[u8],
    finder: &[u32],
    query: &Query,
    mut lent: Lent<'a>,
) -> Result<Plan<'a>, Refusal> {
    let length = call(sheet, Some(finder), query, &mut lent)?;
    let out: &'a [u8] = lent.out;
    Ok(Plan::new(&out[..length]))
}

/// The same plan without a finder. It walks the records for each number that it looks up, which is slow on large sheets.
///
/// # Panics
///
/// In debug builds, if the thread's float environment is not the default one ([`float_environment_is_default`]): with other
/// rounding, or where subnormals are flushed to zero, plans differ. Release builds do not ask.
pub fn plan<'a>(sheet: &[u8], query: &Query, mut lent: Lent<'a>) -> Result<Plan<'a>, Refusal> {
    let length = call(sheet, None, query, &mut lent)?;
    let out: &'a [u8] = lent.out;
    Ok(Plan::new(&out[..length]))
}

fn debug_assert_float_environment() {
    debug_assert!(
        float_environment_is_default(),
        "the planner needs a thread that rounds to nearest, flushes no subnormals and traps no float exception: its MXCSR is changed"
    );
}

/// The number of places that opening filled in, or the refusal.
pub(crate) fn call_open(sheet: &[u8], finder: &mut [u32]) -> Result<usize, Refusal> {
    debug_assert_float_environment();
    let (mut offset, mut places) = (0, 0);
    // SAFETY: each pointer with its length is one of Rust's slices, so it is not null, is aligned, and what is written
    // overlaps nothing. The function keeps no pointer and touches nothing else.
    let number = unsafe {
        scene_open(
            sheet.as_ptr(),
            sheet.len(),
            finder.as_mut_ptr(),
            finder.len(),
            &mut offset,
            &mut places,
        )
    };
    answer(number, offset, places, WRONG_FINDER)
}

/// The tape's length in `lent.out`, or the refusal: planned with the places of a finder, or without.
pub(crate) fn call(
    sheet: &[u8],
    finder: Option<&[u32]>,
    query: &Query,
    lent: &mut Lent,
) -> Result<usize, Refusal> {
    debug_assert_float_environment();
    let (mut offset, mut length) = (0, 0);
    // The two functions differ only in the slices that come first.
    macro_rules! number {
        ($function:ident, $($slice:ident),+) => {
            // SAFETY: as above.
            unsafe {
                $function(
                    $($slice.as_ptr(), $slice.len(),)+
                    query.root,
                    query.depth,
                    query.view.min_x,
                    query.view.min_y,
                    query.view.max_x,
                    query.view.max_y,
                    query.zoom,
                    query.hidden.as_ptr(),
                    query.hidden.len(),
                    lent.out.as_mut_ptr(),
                    lent.out.len(),
                    lent.counts.as_mut_ptr(),
                    lent.counts.len(),
                    lent.marks.as_mut_ptr(),
                    lent.marks.len(),
                    &mut offset,
                    &mut length,
                )
            }
        };
    }
    let number = match finder {
        Some(finder) => number!(scene_plan_with_finder, sheet, finder),
        None => number!(scene_plan, sheet),
    };
    answer(number, offset, length, OUTPUT_TOO_SHORT)
}

/// What was filled in, or the refusal: one number says with it what would have been enough.
fn answer(number: u32, offset: usize, filled: usize, too_short: u32) -> Result<usize, Refusal> {
    match number {
        0 => Ok(filled),
        _ => Err(Refusal {
            number,
            offset,
            needed: (number == too_short).then_some(filled),
        }),
    }
}
