//! Descents of cells and inner references, built from the bottom up, with true boxes.

use super::boxes::{Sides, join, reference_box};
use super::encode::{QUARTERS, single};
use super::rng::Rng;
use crate::sheet::{Cell, Query, Reference, Sheet, Source};

/// A sheet of a descent, one step at a time from the bottom up, with true boxes. Cells are numbered from the bottom.
pub struct Descent {
    pub sheet: Sheet,
    /// The last step: the cell at the bottom, a reference or a cell, and its box.
    last: Source,
    sides: Sides,
}

impl Descent {
    /// A sheet that has the cell at the bottom, with its box.
    pub fn above(sheet: Sheet, sides: Sides) -> Self {
        Self { sheet, last: Source::Cell(0), sides }
    }

    /// A turned reference to the last step, with what `place` changes of it.
    pub fn reference(&mut self, rng: &mut Rng, place: impl FnOnce(&mut Rng, &mut Reference)) -> u32 {
        let mut step = single(self.last, Some(self.sides));
        (step.cos, step.sin) = rng.pick(&QUARTERS);
        step.reflection = rng.chance(1, 4);
        place(rng, &mut step);
        self.sides = reference_box(&step, self.sides).expect("a member");
        let number = self.sheet.reference(step);
        self.last = Source::Reference(number);
        number
    }

    /// The next cell's box holds these sides too, for what it has besides a reference.
    pub fn widen(&mut self, sides: Sides) {
        self.sides = join(Some(self.sides), Some(sides)).expect("two boxes");
    }

    /// A cell that lists this reference to the step before.
    pub fn cell(&mut self, units: u64, reference: u32) -> &mut Cell {
        self.last = Source::Cell(self.sheet.cells.len() as u32);
        let cell = self.sheet.cell(units, Some(self.sides));
        cell.references.push(reference);
        cell
    }
}

/// Moves a reference by up to 3 either way.
pub fn moved(rng: &mut Rng, step: &mut Reference) {
    step.origin = [rng.range(-3, 3) as f64, rng.range(-3, 3) as f64];
}

/// Cells are numbered from the bottom up; this numbers them from the top down.
pub fn from_the_top(sheet: &mut Sheet) {
    let last = sheet.cells.len() as u32 - 1;
    sheet.cells.reverse();
    for reference in &mut sheet.references {
        if let Source::Cell(number) = &mut reference.source {
            *number = last - *number;
        }
    }
}

/// The view holds all of the root, which is the cell at this place.
pub fn whole_root(sheet: &Sheet, root: usize, depth: u32, zoom: f64) -> Query {
    let view = sheet.cells[root].bbox.expect("a box");
    Query { root: root as u32, depth, view, zoom, hidden: Vec::new() }
}
