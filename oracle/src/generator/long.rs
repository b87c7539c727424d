//! Families of long records, lists and chains: nodes of 50 points, texts of 512 bytes, lists of 65,535 numbers, 65,000
//! hidden layers, 4,096 cells, chains of cells and of inner references; and the large cases of the same.

use super::boxes::{grow_true_boxes, join, reference_box, true_boxes};
use super::descent::{Descent, from_the_top, moved, whole_root};
use super::encode::{QUARTERS, input, single};
use super::families::{Pair, square};
use super::query::near;
use super::rng::Rng;
use super::square::{Shape, bare};
use crate::sheet::{Query, Sheet, Source};

const MOST_POINTS: usize = 50;
const MOST_NUMBERS: usize = 65_535;
const MOST_HIDDEN: usize = 65_000;
const MOST_CELLS: usize = 4_096;

/// A count from 1 to the most: short ones are likelier, and some are the most.
fn count(rng: &mut Rng, most: usize) -> usize {
    if rng.chance(1, 64) {
        return most;
    }
    let bits = rng.below(17).min(rng.below(17));
    ((1 << bits) + rng.below(1 << bits) as usize).min(most)
}

fn point(rng: &mut Rng) -> [f64; 2] {
    [rng.range(-200, 200) as f64, rng.range(-200, 200) as f64]
}

/// Nodes of up to 50 points; the texts' values are written with up to 512 bytes.
pub fn long_records(rng: &mut Rng) -> Pair {
    let cells = rng.size(1, 3);
    let mut sheet = bare(rng, &Shape { cells, items: 2, references: 4, ..Shape::SMALL });
    let node = sheet.node(1, 2, &[[0.0, 0.0]]);
    let text = sheet.text(2, 1, point(rng));
    sheet.cells[0].nodes.push(node);
    sheet.cells[0].texts.push(text);
    for node in &mut sheet.nodes {
        let count = if rng.chance(1, 3) { MOST_POINTS } else { rng.size(1, MOST_POINTS) };
        node.points = (0..count).map(|_| point(rng)).collect();
    }
    true_boxes(&mut sheet);
    (near(rng, &sheet), sheet)
}

/// A few items and references of each kind, which cells may list again and again. Cell 1 is short.
fn few_items(rng: &mut Rng) -> Sheet {
    let mut sheet = Sheet::default();
    for place in 0..3u16 {
        let [x, y] = point(rng);
        sheet.batch(place, 0, rng.pick(&[0, 1, 127, 128]), [x, y, x + 30.0, y + 30.0]);
        sheet.text(place, 1, point(rng));
        let points = [point(rng), point(rng)];
        sheet.node(place, 2, &points);
    }
    for source in [Source::Cell(1), Source::Batch(1), Source::Text(1), Source::Node(1), Source::Reference(0)] {
        let mut reference = single(source, None);
        (reference.cos, reference.sin) = rng.pick(&QUARTERS);
        (reference.origin, reference.columns) = (point(rng), rng.pick(&[1, 1, 2, 0]));
        sheet.reference(reference);
    }
    sheet.cell(rng.below(4), None);
    let cell = sheet.cell(rng.below(4), None);
    (cell.batches, cell.texts, cell.nodes) = (vec![0], vec![0, 1], vec![0]);
    sheet
}

/// A list of so many numbers below `records`, most of them one that is picked beforehand.
fn list(rng: &mut Rng, length: usize, records: u64) -> Vec<u32> {
    let usual = rng.below(records) as u32;
    let odds = rng.pick(&[1, 2, 50, 4_000]);
    (0..length).map(|_| if rng.chance(1, odds) { rng.below(records) as u32 } else { usual }).collect()
}

/// Lists of up to 65,535 numbers of each kind.
pub fn long_lists(rng: &mut Rng) -> Pair {
    let mut sheet = few_items(rng);
    let lengths: [usize; 4] = std::array::from_fn(|_| count(rng, MOST_NUMBERS));
    let root = &mut sheet.cells[0];
    root.batches = list(rng, lengths[0], 3);
    root.texts = list(rng, lengths[1], 3);
    root.nodes = list(rng, lengths[2], 3);
    root.references = list(rng, lengths[3], 5);
    grow_true_boxes(&mut sheet);
    let mut query = near(rng, &sheet);
    if rng.chance(1, 2) {
        query.hidden = vec![0x1, 0x1_0001, rng.pick(&[0x2_0002, 0x1_0000])];
    }
    (query, sheet)
}

/// A hidden layer that no item of the sheet has.
fn other_layer(rng: &mut Rng) -> u32 {
    let layer = rng.pick(&[3, 700, 65_535]) << 16;
    layer | rng.below(65_536) as u32
}

/// Up to 65,000 hidden layers, a few of them the sheet's, at any place.
pub fn many_hidden(rng: &mut Rng) -> Pair {
    let (mut query, sheet) = square(rng);
    query.hidden = (0..count(rng, MOST_HIDDEN)).map(|_| other_layer(rng)).collect();
    for _ in 0..rng.size(0, 4) {
        let last = query.hidden.len() - 1;
        let place = if rng.chance(1, 3) { last } else { rng.below(last as u64 + 1) as usize };
        query.hidden[place] = (rng.below(3) << 16 | rng.below(3)) as u32;
    }
    (query, sheet)
}

/// The bottom of a chain: a cell with a text and a batch.
fn chain() -> Descent {
    let mut sheet = Sheet::default();
    let sides = [0.0, 0.0, 40.0, 40.0];
    let text = sheet.text(1, 0, [7.0, 9.0]);
    let batch = sheet.batch(2, 0, 1, sides);
    let bottom = sheet.cell(1, Some(sides));
    (bottom.texts, bottom.batches) = (vec![text], vec![batch]);
    Descent::above(sheet, sides)
}

/// One cell more, sometimes with the text.
fn add_cell(chain: &mut Descent, rng: &mut Rng) {
    let number = chain.reference(rng, moved);
    let with_text = rng.chance(1, 3);
    if with_text {
        chain.widen([7.0, 9.0, 7.0, 9.0]);
    }
    chain.cell(rng.below(3), number).texts = vec![0; usize::from(with_text)];
}

/// Chains of up to 4,096 cells, of as many inner references, and of both.
pub fn many_cells(rng: &mut Rng) -> Pair {
    let steps = count(rng, MOST_CELLS - 1);
    let inner_in_four = rng.pick(&[0, 0, 1, 4]);
    let mut chain = chain();
    for step in 1..=steps {
        if step < steps && rng.chance(inner_in_four, 4) {
            chain.reference(rng, moved);
        } else {
            add_cell(&mut chain, rng);
        }
    }
    let mut sheet = chain.sheet;
    let top = sheet.cells.len() - 1;
    // A sheet so long is no small case: the stored ones stay as they were.
    let long = sheet.references.len() > 33;
    let above = match rng.below(4) {
        0 => top,
        1 => rng.below(top as u64 + 1) as usize,
        _ => rng.size(1, if long { 60 } else { 33 }).min(top),
    };
    let turned = rng.chance(1, 2);
    if turned {
        from_the_top(&mut sheet);
    }
    let root = if turned { top - above } else { above };
    let depth = if long { rng.pick(&[2, 31, 32, 33, 47, 48]) } else { rng.pick(&[2, 5, 31, 32]) };
    let zoom = rng.pick(&[1.0, 2.0, 24.0 / 40.0, 10.0]);
    (whole_root(&sheet, root, depth, zoom), sheet)
}

/// So many cells, each in the next, numbered from the top.
fn cells_in_one_another(rng: &mut Rng, cells: u64) -> Sheet {
    let mut chain = chain();
    (1..cells).for_each(|_| add_cell(&mut chain, rng));
    from_the_top(&mut chain.sheet);
    chain.sheet
}

/// So many cells, each in the next; the root is the first, which the others lie below.
pub fn chain_of_cells(rng: &mut Rng, cells: u64, depth: u32) -> Vec<u8> {
    let sheet = cells_in_one_another(rng, cells);
    input(&whole_root(&sheet, 0, depth, 1.0), &sheet, rng)
}

/// Planned from the cell from which the last one is just reached.
pub fn end_of_a_chain_of_cells(rng: &mut Rng, cells: u64, depth: u32) -> Vec<u8> {
    let sheet = cells_in_one_another(rng, cells);
    input(&whole_root(&sheet, cells as usize - depth as usize, depth, 1.0), &sheet, rng)
}

/// So many references, each in the next. The root lists the last, the one from which a visit just reaches the end of
/// the chain, and the one from which it does not.
pub fn chain_of_references(rng: &mut Rng, references: u64, depth: u32) -> Vec<u8> {
    let mut chain = chain();
    for _ in 1..references {
        chain.reference(rng, moved);
    }
    add_cell(&mut chain, rng);
    let mut sheet = chain.sheet;
    for number in [depth - 2, depth - 1] {
        sheet.cells[1].references.push(number);
        let reference = &sheet.references[number as usize];
        let whole = reference.bbox.and_then(|source| reference_box(reference, source));
        sheet.cells[1].bbox = join(sheet.cells[1].bbox, whole);
    }
    input(&whole_root(&sheet, 1, depth, 1.0), &sheet, rng)
}

/// Four lists of so many numbers, all of which the visit goes through: all but the last lie out of view.
pub fn four_long_lists(rng: &mut Rng, length: u64) -> Vec<u8> {
    let mut sheet = Sheet::default();
    for x in [0.0, 5_000.0] {
        sheet.batch(1, 0, 1, [x, 0.0, x + 30.0, 30.0]);
        sheet.text(1, 1, [x, 1.0]);
        sheet.node(1, 2, &[[x, 2.0], [x, 3.0]]);
    }
    for batch in [0, 1] {
        sheet.reference(single(Source::Batch(batch), None));
    }
    let mut numbers = vec![1; length as usize];
    numbers[length as usize - 1] = 0;
    let root = sheet.cell(0, None);
    (root.batches, root.texts) = (numbers.clone(), numbers.clone());
    (root.nodes, root.references) = (numbers.clone(), numbers);
    grow_true_boxes(&mut sheet);
    let query = Query { view: [0.0, 0.0, 100.0, 100.0], ..whole_root(&sheet, 0, 3, 1.0) };
    input(&query, &sheet, rng)
}

/// So many hidden layers, the last of which is that of one text, batch and node of two each.
pub fn hidden_layers(rng: &mut Rng, length: u64) -> Vec<u8> {
    let mut sheet = Sheet::default();
    for layer in [1, 2] {
        sheet.batch(layer, 5, 1, [0.0, 0.0, 30.0, 30.0]);
        sheet.text(layer, 5, [1.0, 1.0]);
        sheet.node(layer, 5, &[[2.0, 2.0]]);
    }
    let root = sheet.cell(0, None);
    (root.batches, root.texts, root.nodes) = (vec![0, 1], vec![0, 1], vec![0, 1]);
    grow_true_boxes(&mut sheet);
    let mut query = whole_root(&sheet, 0, 1, 1.0);
    query.hidden = (1..length).map(|_| other_layer(rng)).chain([0x2_0005]).collect();
    input(&query, &sheet, rng)
}
