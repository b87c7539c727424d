//! Families for document 02's Paper 13: descents of up to 60 levels of cells and inner references, circles among them, and
//! sheets of other families at depths up to 49.

use super::boxes::{Sides, join, reference_box};
use super::descent::{Descent, moved};
use super::encode::single;
use super::families::{Pair, chains, circles, density, slanted, square, units};
use super::query::near;
use super::rng::Rng;
use super::unused::unused_sites;
use crate::sheet::{Query, Sheet, Source};

/// So many levels may lie in one another.
const MOST_LEVELS: usize = 60;
/// What every cell may hold: a quarter turn about (0, 0) leaves it in place.
const HELD: Sides = [-40.0, -40.0, 40.0, 40.0];
/// A box that is wider than what it holds: what is dense below it is not dense above.
const FRAME: Sides = [-200.0, -200.0, 200.0, 200.0];

/// A descent one level at a time.
struct Nest {
    descent: Descent,
    /// Nothing is moved, so that a circle keeps its boxes.
    still: bool,
    /// The units of each cell but the last.
    units: u64,
}

impl Nest {
    fn new(rng: &mut Rng, still: bool) -> Self {
        let mut sheet = Sheet::default();
        sheet.text(1, 0, [7.0, 9.0]);
        sheet.node(2, 0, &[[-5.0, 3.0], [11.0, -20.0]]);
        sheet.batch(0, 1, rng.pick(&[1, 1, 128]), HELD);
        let bottom = sheet.cell(rng.pick(&[0, 1, 128]), Some(HELD));
        (bottom.texts, bottom.nodes, bottom.batches) = (vec![0], vec![0], vec![0]);
        Self { descent: Descent::above(sheet, HELD), still, units: rng.pick(&[0, 0, 1, 3, 4]) }
    }

    /// A reference to the last level: of two members where `twice` is asked for.
    fn reference(&mut self, rng: &mut Rng, twice: bool) -> u32 {
        self.descent.reference(rng, |rng, step| {
            step.columns += u16::from(twice);
            if !self.still {
                moved(rng, step);
                step.spacing_x = [rng.range(0, 90) as f64, rng.range(0, 9) as f64];
            }
        })
    }

    /// A cell around a reference to the last level, with items at times, and seldom with a frame.
    fn cell(&mut self, rng: &mut Rng, twice: bool) {
        let number = self.reference(rng, twice);
        let [text, node, batch] = [6, 3, 2].map(|odds| rng.chance(odds, 12));
        if text || node || batch {
            self.descent.widen(HELD);
        }
        if !self.still && rng.chance(1, 48) {
            self.descent.widen(FRAME);
        }
        let cell = self.descent.cell(self.units, number);
        (cell.texts, cell.nodes, cell.batches) = (vec![0; text.into()], vec![0; node.into()], vec![0; batch.into()]);
    }
}

/// The bottom lists the top, a middle cell or any cell again.
fn close(rng: &mut Rng, sheet: &mut Sheet) {
    let top = sheet.cells.len() - 1;
    let any = rng.size(0, top);
    let back = rng.pick(&[top, top, top / 2, any]);
    let number = sheet.reference(single(Source::Cell(back as u32), sheet.cells[back].bbox));
    sheet.cells[0].references.push(number);
}

/// The top lists a level below it once more, by an inner reference or directly: what is counted there is counted at two depths.
fn list_again(rng: &mut Rng, sheet: &mut Sheet) {
    let top = sheet.cells.len() - 1;
    let number = sheet.cells[top].references[0];
    let number = if rng.chance(1, 2) { number } else { rng.below(u64::from(number) + 1) as u32 };
    let reference = &sheet.references[number as usize];
    let sides = reference.bbox.and_then(|source| reference_box(reference, source));
    let number = if rng.chance(3, 4) { sheet.reference(single(Source::Reference(number), sides)) } else { number };
    let root = &mut sheet.cells[top];
    root.references.push(number);
    root.bbox = join(root.bbox, sides);
}

/// A descent of so many levels; the root is the last cell.
fn nested(rng: &mut Rng, levels: usize) -> Sheet {
    let still = rng.chance(1, 4);
    let inner_in_four = rng.pick(&[0, 0, 1, 2, 3, 4]);
    let grids = rng.pick(&[0, 0, 1, 2]);
    let mut nest = Nest::new(rng, still);
    for level in 1..levels {
        let twice = rng.chance(grids, 48);
        if level + 1 < levels && rng.chance(inner_in_four, 4) {
            nest.reference(rng, twice);
        } else {
            nest.cell(rng, twice);
        }
    }
    let mut sheet = nest.descent.sheet;
    if still {
        close(rng, &mut sheet);
    } else if levels > 1 && rng.chance(1, 3) {
        list_again(rng, &mut sheet);
    }
    sheet
}

/// A query for the last cell at this depth, mostly of the whole of it, and at times so near that the units decide.
fn asked(rng: &mut Rng, sheet: &Sheet, depth: u32) -> Query {
    let query = near(rng, sheet);
    let root = sheet.cells.len() - 1;
    let sides = sheet.cells[root].bbox.expect("a box");
    let area = (sides[2] - sides[0]) * (sides[3] - sides[1]);
    let dense = (16.0 * rng.range(100, 200) as f64 / area).sqrt();
    let view = if rng.chance(3, 4) { sides } else { query.view };
    Query { root: root as u32, depth, view, zoom: rng.pick(&[1.0, 2.0, 10.0, 24.0 / 80.0, dense]), ..query }
}

/// Descents around the depths 32 and 48, asked at depths around these.
pub fn deep_nests(rng: &mut Rng) -> Pair {
    let levels = if rng.chance(1, 3) { rng.size(2, MOST_LEVELS) } else { rng.pick(&[32, 33, 34, 47, 48, 49, 50, MOST_LEVELS]) };
    let sheet = nested(rng, levels);
    let own = levels as u32;
    let depth = rng.pick(&[own - 1, own, own + 1, 31, 32, 33, 47, 48, 48]).min(48);
    let depth = if rng.chance(1, 20) { 49 } else { depth };
    (asked(rng, &sheet, depth), sheet)
}

/// Descents of 33 to 60 levels at depths from 33 to 48, for the brute force.
pub fn deep_enough(rng: &mut Rng) -> Pair {
    let levels = rng.size(33, MOST_LEVELS);
    let sheet = nested(rng, levels);
    let any = rng.range(33, 48) as u32;
    let depth = rng.pick(&[33, 47, 48, 48, any, (levels as u32).min(48)]);
    (asked(rng, &sheet, depth), sheet)
}

/// Sheets of other families at depths from 31 to 49.
pub fn deep_queries(rng: &mut Rng) -> Pair {
    let families: [fn(&mut Rng) -> Pair; 7] = [square, slanted, circles, chains, density, units, unused_sites];
    let (query, sheet) = rng.pick(&families)(rng);
    let any = rng.range(33, 48) as u32;
    let depth = rng.pick(&[31, 32, 33, 34, 47, 48, 49, any]);
    (Query { depth, ..query }, sheet)
}
