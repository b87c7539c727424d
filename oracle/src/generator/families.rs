//! The families of random cases that are accepted: each turns a random sheet to one topic of document 01.

use super::boxes::{grow_true_boxes, true_boxes};
use super::encode::{QUARTERS, grid, single};
use super::query::near;
use super::rng::Rng;
use super::square::{Shape, bare, with_true_boxes};
use crate::sheet::{Query, Sheet, Source};

pub type Pair = (Query, Sheet);

pub fn square(rng: &mut Rng) -> Pair {
    let cells = rng.size(1, 5);
    let sheet = with_true_boxes(rng, &Shape { cells, ..Shape::SMALL });
    (near(rng, &sheet), sheet)
}

/// Boxes that are absent, moved, turned inside out or too small.
pub fn false_boxes(rng: &mut Rng) -> Pair {
    let mut sheet = with_true_boxes(rng, &Shape { circles: 2, ..Shape::SMALL });
    let spoil = |rng: &mut Rng, bbox: &mut Option<[f64; 4]>| match rng.below(8) {
        0 => *bbox = None,
        1 => {
            if let Some(sides) = bbox {
                *sides = [sides[2], sides[3], sides[0], sides[1]];
            }
        }
        2 => {
            if let Some(sides) = bbox {
                let x = rng.range(-60, 60) as f64;
                *sides = [sides[0] + x, sides[1], sides[2] + x, sides[3]];
            }
        }
        3 => *bbox = Some([0.0, 0.0, rng.range(0, 50) as f64, rng.range(-9, 50) as f64]),
        _ => {}
    };
    for reference in &mut sheet.references {
        spoil(rng, &mut reference.bbox);
    }
    for cell in &mut sheet.cells {
        spoil(rng, &mut cell.bbox);
    }
    for batch in &mut sheet.batches {
        if rng.chance(1, 5) {
            batch.bbox.swap(0, 2);
        }
    }
    (near(rng, &sheet), sheet)
}

/// A cos and a sin near the unit circle, by steps that round alike on every machine.
pub fn turn(rng: &mut Rng) -> (f64, f64) {
    let t = 2.0 * rng.unit() - 1.0;
    let (cos, sin) = ((1.0 - t * t) / (1.0 + t * t), 2.0 * t / (1.0 + t * t));
    if rng.chance(1, 2) { (cos, sin) } else { (-cos, -sin) }
}

/// Odd angles and magnifications; boxes near the true ones.
pub fn slanted(rng: &mut Rng) -> Pair {
    let mut sheet = bare(rng, &Shape::SMALL);
    for reference in &mut sheet.references {
        if rng.chance(3, 4) {
            (reference.cos, reference.sin) = turn(rng);
        }
        if rng.chance(1, 2) {
            reference.magnification = rng.pick(&[0.5, 2.0, -1.0, 0.1, 1.1, 3.7, 0.0]);
        }
        for value in reference.origin.iter_mut().chain(&mut reference.spacing_x) {
            *value += rng.unit();
        }
    }
    for text in &mut sheet.texts {
        text.origin[0] += rng.unit();
    }
    true_boxes(&mut sheet);
    (near(rng, &sheet), sheet)
}

const EXTREMES: [f64; 18] = [
    0.0,
    -0.0,
    f64::from_bits(1),
    -f64::from_bits(1),
    f64::MIN_POSITIVE,
    f64::MAX,
    f64::MIN,
    1e300,
    -1e300,
    1e154,
    1.340_780_792_994_259_7e154,
    9_007_199_254_740_993.0,
    3.4e38,
    3.5e38,
    -1e-300,
    1e-160,
    0.1,
    1e17,
];

fn strike(rng: &mut Rng, odds: u64, values: &mut [f64]) {
    for value in values {
        if rng.chance(1, odds) {
            *value = match rng.below(3) {
                0 => f64::from_bits(rng.next() & !(1 << 62)),
                _ => rng.pick(&EXTREMES),
            };
        }
    }
}

/// Huge, subnormal and overflowing floats struck into a sheet.
pub fn wild(rng: &mut Rng) -> Pair {
    let (mut query, mut sheet) = if rng.chance(1, 2) { slanted(rng) } else { square(rng) };
    let odds = rng.pick(&[4, 12, 40]);
    for reference in &mut sheet.references {
        strike(rng, odds, &mut reference.origin);
        strike(rng, odds, &mut reference.spacing_x);
        strike(rng, odds, &mut reference.spacing_y);
        let mut turn = [reference.magnification, reference.cos, reference.sin];
        strike(rng, odds, &mut turn);
        [reference.magnification, reference.cos, reference.sin] = turn;
        if let Some(sides) = &mut reference.bbox {
            strike(rng, 4 * odds, sides);
        }
    }
    for text in &mut sheet.texts {
        strike(rng, 2 * odds, &mut text.origin);
    }
    for batch in &mut sheet.batches {
        strike(rng, 2 * odds, &mut batch.bbox);
    }
    for cell in &mut sheet.cells {
        if let Some(sides) = &mut cell.bbox {
            strike(rng, 8 * odds, sides);
        }
    }
    if rng.chance(1, 2) {
        query.view = [f64::MIN, f64::MIN, f64::MAX, f64::MAX];
    }
    if rng.chance(1, 3) {
        query.zoom = rng.pick(&[1e-300, 1e300, f64::from_bits(1), f64::MAX, 2f64.powi(64), 2f64.powi(128), 1e-38]);
    }
    query.depth = rng.range(2, 5) as u32;
    (query, sheet)
}

/// A descent of cells and inner references, to depth 32 and beyond.
pub fn nest(rng: &mut Rng) -> Pair {
    let levels = rng.size(2, 34);
    let inner_in_four = rng.pick(&[0, 1, 3, 4, 4]);
    let mut sheet = Sheet::default();
    let text = sheet.text(1, 0, [rng.range(0, 40) as f64, rng.range(0, 40) as f64]);
    let batch = sheet.batch(2, 0, 1, [0.0, 0.0, 40.0, 40.0]);
    // From the bottom up, so that an inner reference names an earlier one. Cells are numbered from the bottom too.
    let bottom = sheet.cell(1, None);
    (bottom.texts, bottom.batches) = (vec![text], vec![batch]);
    let mut source = Source::Cell(0);
    for level in 1..levels {
        let (cos, sin) = rng.pick(&QUARTERS);
        let mut step = single(source, None);
        (step.cos, step.sin, step.reflection) = (cos, sin, rng.chance(1, 4));
        step.origin = [rng.range(-3, 3) as f64, rng.range(-3, 3) as f64];
        let number = sheet.reference(step);
        source = if rng.chance(inner_in_four, 4) && level + 1 < levels {
            Source::Reference(number)
        } else {
            let units = rng.below(4);
            sheet.cell(units, None).references.push(number);
            if rng.chance(1, 3) {
                sheet.cells.last_mut().unwrap().texts.push(text);
            }
            Source::Cell(sheet.cells.len() as u32 - 1)
        };
    }
    true_boxes(&mut sheet);
    let mut query = near(rng, &sheet);
    query.root = sheet.cells.len() as u32 - 1;
    query.view = sheet.cells[query.root as usize].bbox.unwrap();
    query.depth = rng.pick(&[levels as u32 - 1, levels as u32, levels as u32 + 1, 31, 32]).min(32);
    query.zoom = rng.pick(&[1.0, 2.0, 24.0 / 40.0, 10.0]);
    (query, sheet)
}

pub fn circles(rng: &mut Rng) -> Pair {
    let shape = Shape { circles: 8, missing: 0, cells: rng.size(1, 4), ..Shape::SMALL };
    let mut sheet = with_true_boxes(rng, &shape);
    if rng.chance(1, 5) {
        let cell = rng.below(sheet.cells.len() as u64) as usize;
        sheet.cells[cell].bbox = None;
    }
    (near(rng, &sheet), sheet)
}

/// References to cells that the sheet lacks, with and without source boxes.
pub fn missing(rng: &mut Rng) -> Pair {
    let mut sheet = with_true_boxes(rng, &Shape { missing: 8, ..Shape::SMALL });
    for reference in &mut sheet.references {
        if reference.bbox.is_none() && rng.chance(2, 3) {
            reference.bbox = Some([0.0, 0.0, rng.range(0, 90) as f64, rng.range(0, 90) as f64]);
        }
    }
    (near(rng, &sheet), sheet)
}

/// Inner references that hold inner references.
pub fn chains(rng: &mut Rng) -> Pair {
    let shape = Shape { chains: 13, grid: 2, references: 10, ..Shape::SMALL };
    let sheet = with_true_boxes(rng, &shape);
    (near(rng, &sheet), sheet)
}

pub fn empty_grids(rng: &mut Rng) -> Pair {
    let mut sheet = with_true_boxes(rng, &Shape { empty: 8, ..Shape::SMALL });
    for cell in &mut sheet.cells {
        cell.units = rng.range(120, 130) as u64;
    }
    (near(rng, &sheet), sheet)
}

/// Grids of 8,192 and 8,193 members, and around them.
pub fn grid_sizes(rng: &mut Rng) -> Pair {
    let shapes = [(64, 128), (3, 2731), (2731, 3), (1, 8192), (8193, 1), (91, 90), (2, 4096), (32767, 1), (8191, 1)];
    let (columns, rows) = rng.pick(&shapes);
    let mut sheet = Sheet::default();
    let side = rng.pick(&[24.0, 30.0]);
    let bbox = Some([0.0, 0.0, side, side]);
    let number = sheet.reference(grid(Source::Cell(1), bbox, (columns, rows), [side, side + 1.0]));
    let text = sheet.text(0, 0, [1.0, 1.0]);
    sheet.cell(0, None).references.push(number);
    sheet.cell(1, bbox).texts.push(text);
    grow_true_boxes(&mut sheet);
    let mut query = near(rng, &sheet);
    query.depth = rng.range(2, 4) as u32;
    query.zoom = 1.0;
    let corner = rng.range(0, 200) as f64;
    query.view = [corner, corner, corner + rng.range(0, 300) as f64, corner + rng.range(0, 300) as f64];
    (query, sheet)
}

/// Counts at 127 and 128, areas at 16 pixels a unit.
pub fn density(rng: &mut Rng) -> Pair {
    let mut sheet = Sheet::default();
    let units = rng.pick(&[127, 128, 129, 256, 1000, 16_777_217, 16_777_219, 1 << 40, u64::MAX]);
    let width = 64.0;
    let height = rng.pick(&[31.0, 32.0, 33.0, 64.0, 250.0]);
    let bbox = Some([0.0, 0.0, width, height]);
    let batch_units = rng.pick(&[0, 1, 127, 128, 129, 256, 16_777_217, 16_777_219, u32::MAX]);
    let batch = sheet.batch(0, 0, batch_units, [0.0, 0.0, width, height]);
    let shape = rng.pick(&[(1, 1), (2, 1), (1, 3), (16, 8)]);
    let number = sheet.reference(grid(Source::Cell(1), bbox, shape, [width, height]));
    let direct = sheet.reference(single(Source::Batch(batch), bbox));
    sheet.cell(0, None).references.extend([number, direct]);
    sheet.cell(if rng.chance(1, 4) { rng.below(300) } else { units }, bbox).batches.push(batch);
    grow_true_boxes(&mut sheet);
    let mut query = near(rng, &sheet);
    query.depth = rng.range(2, 4) as u32;
    query.view = [0.0, 0.0, 5000.0, 5000.0];
    let exact = (16.0 * units as f64 / (width * height)).sqrt();
    query.zoom = rng.pick(&[1.0, 1.0, exact, exact * (1.0 + f64::EPSILON), exact * (1.0 - 1e-7)]);
    (query, sheet)
}

/// Sizes at one pixel and at 24 pixels, degenerate sources among them.
pub fn pixels(rng: &mut Rng) -> Pair {
    const WIDTHS: [f64; 12] =
        [0.0, 0.5, 0.999_999_97, 0.999_999_99, 1.0, 1.5, 23.999_998, 23.999_999, 23.999_999_5, 24.0, 24.5, 50.0];
    let mut sheet = Sheet::default();
    let (width, height) = (rng.pick(&WIDTHS), rng.pick(&WIDTHS));
    let text = sheet.text(3, 1, [width, height]);
    let node = sheet.node(4, 1, &[[0.0, 0.0], [width, height]]);
    let batch = sheet.batch(5, 1, rng.pick(&[0, 1, 128]), [0.0, 0.0, width, height]);
    let shape = rng.pick(&[(1, 1), (2, 2), (3, 1)]);
    let spacing = [rng.pick(&WIDTHS), rng.pick(&WIDTHS)];
    let sources = [Source::Cell(1), Source::Node(node), Source::Text(text), Source::Batch(batch), Source::Cell(1)];
    let mut numbers = Vec::new();
    for source in sources {
        numbers.push(sheet.reference(grid(source, None, shape, spacing)));
    }
    sheet.cell(0, None).references = numbers;
    let cell = sheet.cell(rng.pick(&[0, 127, 128]), None);
    (cell.texts, cell.nodes, cell.batches) = (vec![text], vec![node], vec![batch]);
    grow_true_boxes(&mut sheet);
    let mut query = near(rng, &sheet);
    query.depth = rng.range(2, 4) as u32;
    query.zoom = rng.pick(&[1.0, 1.0, 1.0, 0.5, 2.0, 24.0]);
    (query, sheet)
}

pub fn hidden(rng: &mut Rng) -> Pair {
    let (mut query, mut sheet) = square(rng);
    // Layers and types whose keys are near each other: (1, 2), (2, 1), (0, 1), (1, 0).
    for text in &mut sheet.texts {
        (text.layer, text.data_type) = rng.pick(&[(1, 2), (2, 1), (0, 1), (1, 0), (65535, 0), (0, 65535)]);
    }
    query.hidden = (0..rng.size(1, 6))
        .map(|_| rng.pick(&[0x1_0002, 0x2_0001, 1, 0x1_0000, 0xffff_0000, 0xffff, 0, 0x1_0001, 0x2_0002]))
        .collect();
    (query, sheet)
}

/// Draw units with circles, chains and remembered counts, zoomed to where the count decides.
pub fn units(rng: &mut Rng) -> Pair {
    let shape = Shape {
        cells: rng.size(2, 4),
        circles: 7,
        missing: 1,
        chains: 5,
        references: 7,
        grid: 2,
        items: 1,
        ..Shape::SMALL
    };
    let mut sheet = with_true_boxes(rng, &shape);
    let most = rng.pick(&[8, 60, 130]);
    for cell in &mut sheet.cells {
        cell.units = rng.below(most);
        if rng.chance(1, 30) {
            cell.units = u64::MAX - rng.below(3);
        }
    }
    let mut query = near(rng, &sheet);
    query.root = 0;
    query.depth = rng.range(2, 7) as u32;
    // An area of 16 pixels for each of 128 to 500 units, on a box at random.
    let areas: Vec<f64> = sheet
        .references
        .iter()
        .filter_map(|reference| reference.bbox)
        .map(|s| (s[2] - s[0]) * (s[3] - s[1]))
        .filter(|&area| area > 0.0)
        .collect();
    if !areas.is_empty() {
        query.zoom = (16.0 * rng.range(128, 500) as f64 / rng.pick(&areas)).sqrt();
    }
    (query, sheet)
}
