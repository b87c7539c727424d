//! Large cases for document 02's Paper 8: what the rules call for where the list of proxies runs full.
//! Once it is full nothing more is entered: each visit that would go on calls for one box more, of its cell or reference, and ends.

use super::boxes::grow_true_boxes;
use super::encode::{grid, input, single};
use super::large::{finish, wide};
use super::rng::Rng;
use crate::events::Limits;
use crate::sheet::{Sheet, Source};

/// The least depth of a query, and levels of cells: what the last one refers to is a box, at depth 1.
const LEVELS: u32 = 32;

/// So wide and high that no level is dense, though the members double at each.
fn side(levels: u32) -> Option<[f64; 4]> {
    let side = if levels > LEVELS { 1e8 } else { 1e6 };
    Some([0.0, 0.0, side, side])
}

/// A batch so dense that it is a box, and counts as no object.
fn dense(sheet: &mut Sheet) -> u32 {
    sheet.batch(1, 0, 200, [0.0, 0.0, 30.0, 30.0])
}

/// A descent of so many cells, each with a reference to the next. The first two hold `filling` boxes between them, and the last
/// calls for one. After it so many visits go on, counted from the root's: a cell with one reference more, a reference with one
/// member more.
pub fn descent(levels: u32, filling: u64, going_on: u64) -> Sheet {
    let mut sheet = Sheet::default();
    let dense = dense(&mut sheet);
    let text = sheet.text(2, 0, [5.0, 5.0]);
    let behind = sheet.reference(single(Source::Text(text), None));
    let shares = [filling / 2, filling.div_ceil(2)];
    for level in 0..levels {
        let goes_on = |visit: u32| u16::from(u64::from(visit) < going_on);
        let step = grid(Source::Cell(level + 1), None, (1 + goes_on(2 * level + 1), 1), [7.0, 0.0]);
        let next = if level + 1 < levels { sheet.reference(step) } else { behind };
        let cell = sheet.cell(0, side(levels));
        cell.batches = vec![dense; shares.get(level as usize).map_or(0, |&share| share as usize)];
        cell.references = [vec![next], vec![behind; goes_on(2 * level).into()]].concat();
    }
    sheet
}

/// So many proxies are called for: what the list does not hold, by visits that go on, of which each depth has two and depth 1 has one.
pub fn called_for(rng: &mut Rng, count: u64) -> Vec<u8> {
    let listed = count.min(Limits::DOCUMENT.proxies as u64);
    let dropped = count - listed;
    let levels = LEVELS.max((dropped as u32).div_ceil(2));
    finish(descent(levels, listed - 1, dropped), wide(levels), rng)
}

/// A descent of any shape, with inner references, circles, cells without a box and boxes at every level: the list runs full on
/// the way.
pub fn any_descent(rng: &mut Rng, levels: u32) -> Vec<u8> {
    let mut sheet = Sheet::default();
    let dense = dense(&mut sheet);
    let text = sheet.text(2, 0, [5.0, 5.0]);
    let node = sheet.node(3, 0, &[[1.0, 1.0], [40.0, 60.0]]);
    let behind = [Source::Text(text), Source::Node(node), Source::Cell(0)].map(|source| sheet.reference(single(source, None)));
    let filling = (Limits::DOCUMENT.proxies - rng.size(1, 40)) / 2;
    for level in 0..levels {
        let shape = rng.pick(&[(1, 1), (2, 1), (1, 2)]);
        let step = sheet.reference(grid(Source::Cell(level + 1), None, shape, [7.0, 9.0]));
        let next = if rng.chance(1, 8) { sheet.reference(single(Source::Reference(step), None)) } else { step };
        let cell = sheet.cell(0, side(levels));
        cell.batches = vec![dense; rng.size(0, 2) + if level < 2 { filling } else { 0 }];
        cell.references = (0..rng.size(0, 2)).map(|_| rng.pick(&behind)).collect();
        cell.references.insert(rng.size(0, cell.references.len()), next);
    }
    sheet.cell(0, side(levels));
    grow_true_boxes(&mut sheet);
    for cell in &mut sheet.cells {
        cell.bbox = cell.bbox.filter(|_| !rng.chance(1, 8));
    }
    input(&wide(levels), &sheet, rng)
}

/// So many parts want a box: the root's, and those of a cell below it. When the list is full the cell's box is called for, and none
/// of the parts behind.
pub fn wanted(rng: &mut Rng, count: u64) -> Vec<u8> {
    let mut sheet = Sheet::default();
    let dense = dense(&mut sheet);
    let below = sheet.reference(single(Source::Cell(1), None));
    let root = sheet.cell(0, None);
    (root.batches, root.references) = (vec![dense; 50_000], vec![below]);
    sheet.cell(0, None).batches = vec![dense; count as usize - 50_000];
    finish(sheet, wide(3), rng)
}
