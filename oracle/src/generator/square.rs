//! Random sheets of whole numbers in quarter turns: the ground of most families and of the brute force.

use super::boxes::true_boxes;
use super::encode::QUARTERS;
use super::rng::Rng;
use crate::sheet::{Reference, Sheet, Source};

/// How large and how strange a random sheet may be.
#[derive(Clone, Copy)]
pub struct Shape {
    pub cells: usize,
    pub items: usize,
    pub references: usize,
    pub grid: usize,
    /// How far items reach, and how far references are moved and spaced.
    pub span: i64,
    pub spread: i64,
    /// In so many of 16: a reference back to an earlier cell or its own, a missing cell, an inner
    /// reference, no columns or rows.
    pub circles: u64,
    pub missing: u64,
    pub chains: u64,
    pub empty: u64,
    /// The most elements of a batch and the most direct units of a cell.
    pub elements: u64,
}

impl Shape {
    pub const SMALL: Self = Self {
        cells: 4,
        items: 4,
        references: 6,
        grid: 3,
        span: 200,
        spread: 200,
        circles: 0,
        missing: 1,
        chains: 4,
        empty: 1,
        elements: 300,
    };
}

pub fn point(rng: &mut Rng, span: i64) -> [f64; 2] {
    [rng.range(-span, span) as f64, rng.range(-span, span) as f64]
}

fn sides(rng: &mut Rng, span: i64) -> [f64; 4] {
    let [x, y] = point(rng, span);
    let width = if rng.chance(1, 8) { 0 } else { rng.range(0, span) };
    let height = match rng.below(8) {
        0 => 0,
        1 | 2 => width,
        _ => rng.range(0, span),
    };
    [x, y, x + width as f64, y + height as f64]
}

fn layers(rng: &mut Rng) -> (u16, u16) {
    (rng.below(3) as u16, rng.below(3) as u16)
}

fn items(sheet: &mut Sheet, rng: &mut Rng, shape: &Shape) {
    for _ in 0..rng.size(0, shape.items) {
        let (layer, data_type) = layers(rng);
        let elements = match rng.below(4) {
            0 => 0,
            1 => 1,
            2 => rng.below(shape.elements + 1),
            _ => 120 + rng.below(16),
        };
        let bbox = sides(rng, shape.span);
        sheet.batch(layer, data_type, elements.min(shape.elements) as u32, bbox);
    }
    for _ in 0..rng.size(0, shape.items) {
        let (layer, data_type) = layers(rng);
        let origin = point(rng, shape.span);
        sheet.text(layer, data_type, origin);
    }
    for _ in 0..rng.size(0, shape.items.div_ceil(2)) {
        let (layer, node_type) = layers(rng);
        let points: Vec<[f64; 2]> =
            (0..rng.size(1, 4)).map(|_| point(rng, shape.span)).collect();
        sheet.node(layer, node_type, &points);
    }
}

/// Cell 0 is the root of most queries, so it refers to higher numbers unless a circle is wanted.
fn source(sheet: &Sheet, rng: &mut Rng, shape: &Shape, own: usize, cell: usize) -> (Source, bool) {
    if rng.chance(shape.missing, 16) {
        return (Source::Cell(shape.cells as u32 + rng.below(3) as u32), false);
    }
    if own > 0 && rng.chance(shape.chains, 16) {
        return (Source::Reference(rng.below(own as u64) as u32), false);
    }
    if rng.chance(shape.circles, 16) {
        return (Source::Cell(rng.below(cell as u64 + 1) as u32), true);
    }
    let number = |rng: &mut Rng, count: usize| rng.below(count as u64) as u32;
    match rng.below(8) {
        0 if !sheet.batches.is_empty() => (Source::Batch(number(rng, sheet.batches.len())), false),
        1 if !sheet.texts.is_empty() => (Source::Text(number(rng, sheet.texts.len())), false),
        2 if !sheet.nodes.is_empty() => (Source::Node(number(rng, sheet.nodes.len())), false),
        _ if cell + 1 < shape.cells => {
            (Source::Cell(rng.range(cell as i64 + 1, shape.cells as i64 - 1) as u32), false)
        }
        _ if !sheet.texts.is_empty() => (Source::Text(number(rng, sheet.texts.len())), false),
        _ => (Source::Cell(shape.cells as u32), false),
    }
}

fn reference(sheet: &Sheet, rng: &mut Rng, shape: &Shape, own: usize, cell: usize) -> Reference {
    let (source, back) = source(sheet, rng, shape, own, cell);
    let (cos, sin) = rng.pick(&QUARTERS);
    let extent = |rng: &mut Rng| {
        if rng.chance(shape.empty, 16) { 0 } else { rng.size(1, shape.grid) as u16 }
    };
    let (columns, rows) = if rng.chance(1, 2) { (1, 1) } else { (extent(rng), extent(rng)) };
    // A circle keeps its boxes only if it turns about the origin.
    let still = back && rng.chance(7, 8);
    let moved = |rng: &mut Rng| if still { [0.0, 0.0] } else { point(rng, shape.spread) };
    let bbox = rng.chance(1, 8).then(|| sides(rng, shape.span));
    Reference {
        columns: if still { 1 } else { columns },
        rows: if still { 1 } else { rows },
        reflection: rng.chance(1, 3),
        source,
        origin: moved(rng),
        spacing_x: moved(rng),
        spacing_y: moved(rng),
        magnification: 1.0,
        cos: negative_zero(cos, rng),
        sin: negative_zero(sin, rng),
        bbox,
    }
}

fn negative_zero(value: f64, rng: &mut Rng) -> f64 {
    if value == 0.0 && rng.chance(1, 6) { -0.0 } else { value }
}

fn some_of(rng: &mut Rng, count: usize, most: usize) -> Vec<u32> {
    if count == 0 {
        return Vec::new();
    }
    (0..rng.size(0, most)).map(|_| rng.below(count as u64) as u32).collect()
}

/// A random square sheet whose boxes are not yet true: some boxes that growing will keep inside.
pub fn bare(rng: &mut Rng, shape: &Shape) -> Sheet {
    let mut sheet = Sheet::default();
    items(&mut sheet, rng, shape);
    // Each reference belongs to one cell, as in a drawing; some are listed again elsewhere.
    let count = rng.size(1, shape.references);
    let mut owner: Vec<usize> = (0..count).map(|_| rng.below(shape.cells as u64) as usize).collect();
    owner[count - 1] = 0;
    for (own, &cell) in owner.iter().enumerate() {
        let made = reference(&sheet, rng, shape, own, cell);
        sheet.reference(made);
    }
    for cell in 0..shape.cells {
        let units = match rng.below(6) {
            0 => 0,
            1 => 120 + rng.below(16),
            2 => rng.below(shape.elements + 1),
            _ => rng.below(8),
        };
        let bbox = rng.chance(1, 6).then(|| sides(rng, shape.span));
        let (batches, texts, nodes) = (
            some_of(rng, sheet.batches.len(), 3),
            some_of(rng, sheet.texts.len(), 3),
            some_of(rng, sheet.nodes.len(), 2),
        );
        let mut references: Vec<u32> =
            (0..count as u32).filter(|&own| owner[own as usize] == cell).collect();
        if rng.chance(1, 6) && !references.is_empty() {
            references.push(references[0]);
        }
        let made = sheet.cell(units, bbox);
        (made.batches, made.texts, made.nodes, made.references) = (batches, texts, nodes, references);
    }
    sheet
}

/// A random square sheet with true boxes.
pub fn with_true_boxes(rng: &mut Rng, shape: &Shape) -> Sheet {
    let mut sheet = bare(rng, shape);
    true_boxes(&mut sheet);
    sheet
}
