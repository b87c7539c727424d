//! Fields of unused sites (document 02, paper 3): grids of a cell that encloses a frame and counts 0 units, beside an array of a
//! cell that draws.

use super::boxes::{grow_true_boxes, reference_box};
use super::encode::{QUARTERS, grid, single};
use super::families::Pair;
use super::query::near;
use super::rng::Rng;
use crate::sheet::{Query, Reference, Sheet, Source};

/// The cells' numbers: the root holds blocks, a block a field of sites and an array of used cells. `BARE` holds nothing and has no box.
const BLOCK: u32 = 1;
const SITE: u32 = 2;
const USED: u32 = 3;
const BARE: u32 = 4;
const MISSING: u32 = 9;

const FIELDS: [(u16, u16); 8] = [(16, 8), (8, 16), (12, 11), (1, 128), (127, 1), (5, 4), (30, 30), (30, 30)];

/// What a site holds besides its frame: nothing in half of the sheets. What it holds is not counted as its own units.
fn site(sheet: &mut Sheet, rng: &mut Rng, side: f64) {
    let (mut texts, mut references) = (Vec::new(), Vec::new());
    match rng.below(8) {
        0 => texts.push(sheet.text(1, 0, [1.0, 1.0])),
        1 => references.push(sheet.reference(grid(Source::Cell(BARE), None, (2, 3), [1.0, 1.0]))),
        2 => references.push(sheet.reference(single(Source::Cell(MISSING), None))),
        3 => references.push(sheet.reference(grid(Source::Cell(USED), None, (0, 2), [1.0, 1.0]))),
        _ => {}
    }
    let cell = sheet.cell(u64::from(rng.chance(1, 8)), Some([0.0, 0.0, side, side]));
    (cell.texts, cell.references) = (texts, references);
}

/// Places a reference in a quarter turn, sometimes through an inner reference.
pub fn placed(sheet: &mut Sheet, rng: &mut Rng, mut reference: Reference) -> u32 {
    reference.origin = [rng.range(-20, 20) as f64, rng.range(-20, 20) as f64];
    (reference.cos, reference.sin) = rng.pick(&QUARTERS);
    reference.reflection = rng.chance(1, 3);
    let number = sheet.reference(reference);
    if rng.chance(1, 6) { sheet.reference(single(Source::Reference(number), None)) } else { number }
}

/// A square sheet with true boxes, and the number of the field's reference.
fn blocks(rng: &mut Rng) -> (Sheet, usize) {
    let mut sheet = Sheet::default();
    let side = rng.range(1, 40) as f64;
    let step = [side + rng.range(0, 1) as f64, rng.pick(&[side, 1.0, side + 3.0])];
    let field = sheet.reference(grid(Source::Cell(SITE), None, rng.pick(&FIELDS), step)) as usize;
    let large = side * rng.pick(&[2.0, 12.0, 40.0]);
    let batch = sheet.batch(2, 0, 1 + rng.below(3) as u32, [0.0, 0.0, large, large]);
    let text = sheet.text(1, 0, [side, side]);
    let array = grid(Source::Cell(USED), None, (rng.range(1, 3) as u16, 2), [large, large + 1.0]);
    let array = placed(&mut sheet, rng, array);
    let shape = rng.pick(&[(1, 1), (1, 1), (2, 1), (2, 2)]);
    let block = grid(Source::Cell(BLOCK), None, shape, [40.0 * side, 50.0 * side]);
    let block = placed(&mut sheet, rng, block);
    let mut listed = vec![block];
    if rng.chance(1, 3) {
        listed.push(field as u32);
    }
    sheet.cell(rng.below(3), None).references = listed;
    sheet.cell(rng.pick(&[0, 0, 1, 120, 127]), None).references = vec![field as u32, array];
    site(&mut sheet, rng, side);
    let used = sheet.cell(rng.below(4), None);
    (used.batches, used.texts) = (vec![batch], vec![text]);
    sheet.cell(0, None);
    grow_true_boxes(&mut sheet);
    (sheet, field)
}

/// Zooms at which the field would be dense with a unit a site, or a site is of a size at which a rule turns.
fn zoom(rng: &mut Rng, field: &Reference) -> f64 {
    let sides = field.bbox.expect("a site has a frame");
    let whole = reference_box(field, sides).expect("a field has members");
    let area = (whole[2] - whole[0]) * (whole[3] - whole[1]);
    let dense = (16.0 * f64::from(field.columns) * f64::from(field.rows) / area).sqrt();
    let site = |pixels: f64| pixels / (sides[2] - sides[0]);
    match rng.below(8) {
        0..=3 => dense * rng.pick(&[0.3, 0.6, 0.9, 1.0, 1.1]),
        4 => site(0.9),
        5 => site(1.0),
        _ => site(rng.pick(&[2.0, 23.0, 24.0, 30.0])),
    }
}

pub fn unused_sites(rng: &mut Rng) -> Pair {
    let (sheet, field) = blocks(rng);
    let query = near(rng, &sheet);
    let zoom = zoom(rng, &sheet.references[field]);
    (Query { root: 0, depth: rng.pick(&[1, 2, 3, 3, 4, 4, 5, 5]), zoom, ..query }, sheet)
}
