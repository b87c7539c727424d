//! The measured calls of one library. `run` compiles this file for each library that it links: the symbols of the one to race
//! against begin with what PREFIX says.

extern "C" {
    #[link_name = concat!(env!("PREFIX"), "sheet_check")]
    fn sheet_check(s: *const u8, length: usize, offset: *mut usize) -> u32;
    #[link_name = concat!(env!("PREFIX"), "scene_open")]
    fn scene_open(
        s: *const u8,
        length: usize,
        finder: *mut u32,
        finder_length: usize,
        offset: *mut usize,
        places: *mut usize,
    ) -> u32;
    #[link_name = concat!(env!("PREFIX"), "scene_plan")]
    fn scene_plan(
        s: *const u8,
        length: usize,
        root: u32,
        depth: u32,
        min_x: f64,
        min_y: f64,
        max_x: f64,
        max_y: f64,
        zoom: f64,
        hidden: *const u32,
        hidden_length: usize,
        out: *mut u8,
        out_length: usize,
        counts: *mut u64,
        counts_length: usize,
        marks: *mut u8,
        marks_length: usize,
        offset: *mut usize,
        tape_length: *mut usize,
    ) -> u32;
    #[link_name = concat!(env!("PREFIX"), "scene_plan_with_finder")]
    fn scene_plan_with_finder(
        s: *const u8,
        length: usize,
        finder: *const u32,
        finder_length: usize,
        root: u32,
        depth: u32,
        min_x: f64,
        min_y: f64,
        max_x: f64,
        max_y: f64,
        zoom: f64,
        hidden: *const u32,
        hidden_length: usize,
        out: *mut u8,
        out_length: usize,
        counts: *mut u64,
        counts_length: usize,
        marks: *mut u8,
        marks_length: usize,
        offset: *mut usize,
        tape_length: *mut usize,
    ) -> u32;
}

/// The number and the offset of the first no, or 0 and 0.
pub fn check(sheet: &[u8]) -> (u32, usize) {
    let mut offset = usize::MAX;
    // SAFETY: a Rattle slice is its address and its length, and the function only reads it.
    let number = unsafe { sheet_check(sheet.as_ptr(), sheet.len(), &mut offset) };
    (number, offset)
}

/// Fills the finder; the number of the sheet's places.
pub fn open(sheet: &[u8], finder: &mut [u32]) -> usize {
    let (mut offset, mut places) = (usize::MAX, usize::MAX);
    // SAFETY: slices as above, and the function writes the finder, which is no part of the sheet.
    let number = unsafe {
        scene_open(sheet.as_ptr(), sheet.len(), finder.as_mut_ptr(), finder.len(), &mut offset, &mut places)
    };
    assert_eq!(number, 0);
    places
}

/// Questions 1 to 7 and the comparison of the finder: depth 49 is refused by number 10, and nothing is planned.
pub fn compare(sheet: &[u8], finder: &[u32]) -> u32 {
    let (mut offset, mut length) = (usize::MAX, usize::MAX);
    let (hidden, mut out, mut counts, mut marks) = ([0u32; 0], [0u8; 0], [0u64; 0], [0u8; 0]);
    // SAFETY: slices as above; what may be written is lent empty.
    unsafe {
        scene_plan_with_finder(
            sheet.as_ptr(), sheet.len(), finder.as_ptr(), finder.len(), 0, 49, 0.0, 0.0, 0.0, 0.0, 1.0,
            hidden.as_ptr(), 0, out.as_mut_ptr(), 0, counts.as_mut_ptr(), 0, marks.as_mut_ptr(), 0, &mut offset,
            &mut length,
        )
    }
}

/// A plan without a finder, in memory for some texts and for 4,096 cells at depth 1: its number and its tape's length.
pub fn plan(sheet: &[u8], root: u32, depth: u32) -> (u32, usize) {
    let (mut offset, mut length) = (usize::MAX, usize::MAX);
    let (hidden, mut out, mut counts, mut marks) = ([0u32; 0], [0u8; 1024], [0u64; 4096], [0u8; 3 * 4096]);
    // SAFETY: slices as above; what is written overlaps nothing.
    let number = unsafe {
        scene_plan(
            sheet.as_ptr(), sheet.len(), root, depth, 0.0, 0.0, 100.0, 100.0, 1.0, hidden.as_ptr(), 0,
            out.as_mut_ptr(), out.len(), counts.as_mut_ptr(), counts.len(), marks.as_mut_ptr(), marks.len(),
            &mut offset, &mut length,
        )
    };
    (number, length)
}
