//! Sheets that are only raced (`bench/plan/run`): slanted ones, 16 MiB of texts, proxies of a reference each, a descent to the
//! greatest depth, and fields of unused sites. They are no stored cases.

use super::boxes::grow_true_boxes;
use super::encode::{grid, input_with, single};
use super::large::{Large, finish, street_sheet, wide};
use super::rng::Rng;
use crate::judge::call::MAX_DEPTH;
use crate::sheet::{Query, Reference, Sheet, Source};

pub const RACED: &[Large] = &[
    Large { name: "slanted batches of a grid", seed: 20_000, make: slanted_batches },
    Large { name: "slanted texts of a grid", seed: 10_000, make: slanted_texts },
    Large { name: "slanted node grid", seed: 20_000, make: slanted_nodes },
    Large { name: "slanted street", seed: 40_000, make: slanted_street },
    Large { name: "bytes of texts", seed: 16_777_216, make: bytes_of_texts },
    Large { name: "proxies of a reference each", seed: 100_000, make: proxies_of_references },
    Large { name: "descent of full cells", seed: 48, make: full_descent },
    Large { name: "unused sites, skipped", seed: 8_192, make: unused_skipped },
    Large { name: "unused sites, boxed", seed: 8_192, make: unused_boxed },
    Large { name: "unused sites, entered", seed: 8_192, make: unused_entered },
];

/// A turn by the angle of the triangle of 3, 4 and 5: neither cosine nor sine is 0, 1 or -1.
fn slant(mut reference: Reference) -> Reference {
    (reference.cos, reference.sin) = (0.8, 0.6);
    reference
}

/// Three slanted grids of one source that together have `count` members.
fn slanted_grids(mut sheet: Sheet, source: Source, side: [f64; 4], count: u64, rng: &mut Rng) -> Vec<u8> {
    let rest = (count - count / 5 * 4) as u16;
    let long = (count / 5 * 2 / 80) as u16;
    let shapes = [(80, long), (long, 80), (1, rest)];
    let references = shapes.map(|shape| sheet.reference(slant(grid(source, Some(side), shape, [40.0, 40.0]))));
    sheet.cell(0, None).references = references.to_vec();
    finish(sheet, wide(3), rng)
}

fn slanted_batches(rng: &mut Rng, count: u64) -> Vec<u8> {
    let mut sheet = Sheet::default();
    let batch = sheet.batch(1, 1, 1, [0.0, 0.0, 30.0, 30.0]);
    slanted_grids(sheet, Source::Batch(batch), [0.0, 0.0, 30.0, 30.0], count, rng)
}

fn slanted_texts(rng: &mut Rng, count: u64) -> Vec<u8> {
    let mut sheet = Sheet::default();
    let text = sheet.text(1, 1, [0.0, 0.0]);
    slanted_grids(sheet, Source::Text(text), [0.0; 4], count, rng)
}

fn slanted_nodes(rng: &mut Rng, count: u64) -> Vec<u8> {
    let mut sheet = Sheet::default();
    let node = sheet.node(1, 1, &[[1.0, 2.0]]);
    slanted_grids(sheet, Source::Node(node), [1.0, 2.0, 1.0, 2.0], count, rng)
}

fn slanted_street(rng: &mut Rng, count: u64) -> Vec<u8> {
    let (mut sheet, query) = street_sheet(rng, count);
    sheet.references = sheet.references.into_iter().map(slant).collect();
    finish(sheet, query, rng)
}

/// Cells of 65,535 texts of 26 bytes each, of which the view holds one in a hundred: as many as `length` bytes have room for.
fn bytes_of_texts(rng: &mut Rng, length: u64) -> Vec<u8> {
    const LISTED: u64 = 65_535;
    let texts = (length - 10_000) / (26 + 4);
    let mut sheet = Sheet::default();
    for place in 0..texts {
        sheet.text(1, 0, [place as f64, rng.range(0, 900) as f64]);
    }
    let cells = texts.div_ceil(LISTED);
    let references = (1..=cells).map(|cell| sheet.reference(single(Source::Cell(cell as u32), None)));
    let references = references.collect();
    sheet.cell(0, None).references = references;
    for cell in 0..cells {
        let listed = cell * LISTED..texts.min((cell + 1) * LISTED);
        sheet.cell(0, None).texts = listed.map(|text| text as u32).collect();
    }
    let view = [0.0, 0.0, texts as f64, 9.0];
    grow_true_boxes(&mut sheet);
    input_with(&Query { view, ..wide(4) }, &sheet, |_| Vec::new(), rng)
}

/// A reference of its own for each proxy, small on the screen.
fn proxies_of_references(rng: &mut Rng, count: u64) -> Vec<u8> {
    let mut sheet = Sheet::default();
    let batch = sheet.batch(1, 1, 1, [0.0, 0.0, 10.0, 10.0]);
    let half = count as u32 / 2;
    for place in 0..count {
        let mut small = single(Source::Cell(3), None);
        small.origin = [place as f64 * 20.0, rng.range(0, 900) as f64];
        sheet.reference(small);
    }
    let second = sheet.reference(single(Source::Cell(1), None));
    let third = sheet.reference(single(Source::Cell(2), None));
    sheet.cell(0, None).references = vec![second, third];
    sheet.cell(0, None).references = (0..half).collect();
    sheet.cell(0, None).references = (half..count as u32).collect();
    sheet.cell(1, None).batches.push(batch);
    finish(sheet, wide(4), rng)
}

/// Cells in one another, each with 200 texts and 200 batches, planned to the greatest depth.
fn full_descent(rng: &mut Rng, levels: u64) -> Vec<u8> {
    let mut sheet = Sheet::default();
    let text = sheet.text(1, 0, [7.0, 9.0]);
    let batch = sheet.batch(2, 0, 1, [0.0, 0.0, 40.0, 40.0]);
    for level in 0..levels as u32 {
        let mut step = single(Source::Cell(level + 1), None);
        (step.origin, step.reflection) = ([2.0, -1.0], rng.chance(1, 2));
        let step = sheet.reference(step);
        let cell = sheet.cell(400, None);
        (cell.texts, cell.batches) = (vec![text; 200], vec![batch; 200]);
        if u64::from(level) + 1 < levels {
            cell.references = vec![step];
        }
    }
    finish(sheet, Query { zoom: 40.0, ..wide(MAX_DEPTH) }, rng)
}

/// One field of sites that count 0, each a frame of so many pixels.
fn unused(rng: &mut Rng, sites: u64, pixels: f64) -> Vec<u8> {
    let mut sheet = Sheet::default();
    let frame = Some([0.0, 0.0, 1.0, 1.0]);
    let field = sheet.reference(grid(Source::Cell(1), frame, (64, (sites / 64) as u16), [1.0, 1.0]));
    sheet.cell(0, None).references.push(field);
    sheet.cell(0, frame);
    finish(sheet, Query { zoom: pixels, ..wide(4) }, rng)
}

fn unused_skipped(rng: &mut Rng, sites: u64) -> Vec<u8> {
    unused(rng, sites, 0.9)
}

fn unused_boxed(rng: &mut Rng, sites: u64) -> Vec<u8> {
    unused(rng, sites, 2.0)
}

fn unused_entered(rng: &mut Rng, sites: u64) -> Vec<u8> {
    unused(rng, sites, 24.0)
}
