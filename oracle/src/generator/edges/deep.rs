//! Deep sheets, for document 02's Paper 13: each shape nested 33, 48, 49 and 60 deep, at depths 32, 33, 47, 48 and 49. Nested so
//! deep means that the last level is visited from that depth on. Some are small cases; the others are large ones, since
//! plan_vectors has no room for all.

use super::{Edges, add, wide};
use crate::generator::boxes::grow_true_boxes;
use crate::generator::encode::{QUARTERS, input, single};
use crate::generator::large::Large;
use crate::generator::rng::Rng;
use crate::sheet::{Sheet, Source};

pub const LEVELS: [u32; 4] = [33, 48, 49, 60];
const DEPTHS: [u32; 5] = [32, 33, 47, 48, 49];

struct Shape {
    name: &'static str,
    /// The sheet that is nested so deep, its root cell 0.
    sheet: fn(u32) -> Sheet,
    /// The large case whose seed is 100 × levels + depth.
    large: fn(&mut Rng, u64) -> Vec<u8>,
    /// Levels and depths of the small cases.
    small: &'static [(u32, u32)],
}

macro_rules! shape {
    ($name:literal, $sheet:ident, $small:expr) => {
        Shape { name: $name, sheet: $sheet, large: |rng, seed| large($sheet, rng, seed), small: $small }
    };
}

const SHAPES: [Shape; 8] = [
    shape!("deep descent of cells", cells, &[(33, 32), (33, 33), (48, 47), (48, 48), (49, 48), (60, 48), (33, 49)]),
    shape!("deep chain of references", references, &[(33, 32), (33, 33), (48, 47), (48, 48), (49, 48), (60, 48)]),
    shape!("deep descent of cells and references", both, &[(33, 33), (48, 48)]),
    shape!("deep circle", circle, &[(32, 33), (33, 33), (47, 48), (48, 48)]),
    shape!("deep circle to the middle", circle_to_the_middle, &[(47, 48)]),
    shape!("deep units", units, &[(33, 32), (33, 33), (48, 47), (48, 48)]),
    shape!("deep units of four a cell", four_units, &[(33, 32), (33, 33)]),
    shape!("deep dense cell", dense_cell, &[(34, 34), (48, 48)]),
];

fn large(sheet: fn(u32) -> Sheet, rng: &mut Rng, seed: u64) -> Vec<u8> {
    let (levels, depth) = (seed as u32 / 100, seed as u32 % 100);
    input(&wide(depth), &sheet(levels), rng)
}

/// The small cases.
pub fn small(edges: &mut Edges) {
    for shape in &SHAPES {
        for &(levels, depth) in shape.small {
            add(edges, format!("{} nested {levels} deep, depth {depth}", shape.name), wide(depth), (shape.sheet)(levels));
        }
    }
}

/// The others, by their seeds.
pub fn large_cases() -> Vec<Large> {
    let mut cases = Vec::new();
    for Shape { name, large, small, .. } in SHAPES {
        for levels in LEVELS {
            let depths = DEPTHS.into_iter().filter(|&depth| !small.contains(&(levels, depth)));
            cases.extend(depths.map(|depth| Large { name, seed: u64::from(100 * levels + depth), make: large }));
        }
    }
    cases
}

/// A text, a node and a batch within 100 x 100.
fn items() -> Sheet {
    let mut sheet = Sheet::default();
    sheet.text(1, 0, [7.0, 9.0]);
    sheet.node(2, 0, &[[1.0, 2.0], [30.0, 40.0]]);
    sheet.batch(3, 0, 1, [0.0, 0.0, 100.0, 100.0]);
    sheet
}

/// A reference moved by 1, so that a position tells its level.
fn step(sheet: &mut Sheet, source: Source) -> u32 {
    let mut step = single(source, None);
    step.origin = [1.0, 0.0];
    sheet.reference(step)
}

/// A cell in each level with a text, and at the levels around the depths and the last one a node and a batch too.
pub fn cells(levels: u32) -> Sheet {
    let mut sheet = items();
    for level in 1..=levels {
        let next = (level < levels).then(|| step(&mut sheet, Source::Cell(level)));
        let cell = sheet.cell(1, None);
        (cell.texts, cell.references) = (vec![0], next.into_iter().collect());
        if [32, 33, 47, 48, levels].contains(&level) {
            (cell.nodes, cell.batches) = (vec![0], vec![0]);
        }
    }
    grow_true_boxes(&mut sheet);
    sheet
}

/// The root, inner references, and cell 1 with all items.
pub fn references(levels: u32) -> Sheet {
    let mut sheet = items();
    let mut last = Source::Cell(1);
    for _ in 1..levels {
        last = Source::Reference(step(&mut sheet, last));
    }
    let root = sheet.references.len() as u32 - 1;
    sheet.cell(1, None).references.push(root);
    let cell = sheet.cell(1, None);
    (cell.texts, cell.nodes, cell.batches) = (vec![0], vec![0], vec![0]);
    grow_true_boxes(&mut sheet);
    sheet
}

/// Cells that hold a reference to a reference to the next one; the last may be held directly.
fn both(levels: u32) -> Sheet {
    let mut sheet = items();
    let mut left = levels - 1;
    while left > 0 {
        let next = sheet.cells.len() as u32 + 1;
        let mut number = step(&mut sheet, Source::Cell(next));
        if left > 1 {
            number = step(&mut sheet, Source::Reference(number));
        }
        left = left.saturating_sub(2);
        let cell = sheet.cell(1, None);
        (cell.texts, cell.references) = (vec![0], vec![number]);
    }
    let cell = sheet.cell(1, None);
    (cell.texts, cell.nodes, cell.batches) = (vec![0], vec![0], vec![0]);
    grow_true_boxes(&mut sheet);
    sheet
}

/// So many cells with a text each, of which the last refers back to one of them. Each is turned by a quarter.
fn circle_to(levels: u32, back: u32) -> Sheet {
    let side = Some([-50.0, -50.0, 50.0, 50.0]);
    let mut sheet = Sheet::default();
    sheet.text(1, 0, [7.0, 9.0]);
    for level in 1..=levels {
        let mut next = single(Source::Cell(if level < levels { level } else { back }), side);
        (next.cos, next.sin) = QUARTERS[1];
        let next = sheet.reference(next);
        let cell = sheet.cell(1, side);
        (cell.texts, cell.references) = (vec![0], vec![next]);
    }
    sheet
}

pub fn circle(levels: u32) -> Sheet {
    circle_to(levels, 0)
}

fn circle_to_the_middle(levels: u32) -> Sheet {
    circle_to(levels, levels / 2)
}

/// Cells of 64 x 32, at which 128 units are dense, in one another. The last has a text.
fn counted(levels: u32, units: impl Fn(u32) -> u64) -> Sheet {
    let side = Some([0.0, 0.0, 64.0, 32.0]);
    let mut sheet = Sheet::default();
    sheet.text(1, 0, [7.0, 9.0]);
    for level in 1..=levels {
        let next = (level < levels).then(|| sheet.reference(single(Source::Cell(level), side)));
        let cell = sheet.cell(units(level), side);
        cell.references = next.into_iter().collect();
        cell.texts = vec![0; usize::from(level == levels)];
    }
    sheet
}

/// The last cell alone has units. The root lists the next one twice, the second time by an inner reference, so that it is
/// counted at two depths.
fn units(levels: u32) -> Sheet {
    let mut sheet = counted(levels, |level| if level == levels { 128 } else { 0 });
    let again = sheet.reference(single(Source::Reference(0), sheet.references[0].bbox));
    sheet.cells[0].references.push(again);
    sheet
}

/// Dense from 32 cells below the root on.
pub fn four_units(levels: u32) -> Sheet {
    counted(levels, |_| 4)
}

/// Large cells in one another, the last of which is small and dense.
fn dense_cell(levels: u32) -> Sheet {
    let mut sheet = counted(levels, |level| if level == levels { 128 } else { 0 });
    let (last, large) = (levels as usize - 1, Some([0.0, 0.0, 640.0, 320.0]));
    sheet.references[..last - 1].iter_mut().for_each(|reference| reference.bbox = large);
    sheet.cells[..last].iter_mut().for_each(|cell| cell.bbox = large);
    sheet
}
