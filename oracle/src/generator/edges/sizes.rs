//! Grids, densities and sizes in pixels at their edges.

use super::{Edges, add, block, wide};
use crate::sheet::{Query, Sheet};

pub fn grids(edges: &mut Edges) {
    for shape in [(64, 128), (3, 2731), (2731, 3), (1, 8192), (8192, 1), (8193, 1), (1, 8193), (32767, 1)] {
        let label = format!("grid {} x {}", shape.0, shape.1);
        add(edges, label, wide(3), block(0, [100.0, 100.0], shape));
    }
    for shape in [(0, 5), (5, 0), (0, 0), (1, 1), (2, 3)] {
        let label = format!("grid {} x {}", shape.0, shape.1);
        add(edges, label, wide(3), block(0, [100.0, 100.0], shape));
    }
}

pub fn density(edges: &mut Edges) {
    for units in [0, 127, 128, 129] {
        for height in [31.0, 32.0, 33.0, 16.0 * 129.0 / 64.0] {
            let label = format!("reference of {units} units at 64 x {height} px");
            add(edges, label, wide(3), block(units, [64.0, height], (1, 1)));
        }
    }
    for elements in [127, 128, 129, 256] {
        for height in [31.0, 32.0, 33.0, 64.0] {
            let mut sheet = Sheet::default();
            let batch = sheet.batch(0, 0, elements, [0.0, 0.0, 64.0, height]);
            sheet.cell(0, None).batches.push(batch);
            add(edges, format!("batch of {elements} at 64 x {height} px"), wide(1), sheet);
        }
    }
    // Counts that single precision rounds, at areas between the two readings.
    for (units, width, height) in [
        (16_777_217, 16384.0, 16384.0),
        (16_777_219, 4_194_305.0, 64.0),
        (16_777_219, 4_194_306.0, 64.0),
        (16_777_221, 4_194_305.0, 64.0),
        (33_554_433, 16384.0, 32768.0),
        (33_554_435, 8_388_609.0, 64.0),
    ] {
        let label = format!("reference of {units} units at {width} x {height} px");
        add(edges, label, Query { view: [0.0, 0.0, 1e7, 1e7], ..wide(3) }, block(units, [width, height], (1, 1)));
        let mut sheet = Sheet::default();
        let batch = sheet.batch(0, 0, units as u32, [0.0, 0.0, width, height]);
        sheet.cell(0, None).batches.push(batch);
        add(edges, format!("batch of {units} at {width} x {height} px"), wide(1), sheet);
    }
    // An area that is not finite in single precision is never dense.
    let huge = Query { view: [0.0, 0.0, 1e30, 1e30], ..wide(3) };
    add(edges, "reference of 128 units, area not finite", huge.clone(), block(128, [1e20, 1e20], (1, 1)));
    add(edges, "reference of 2^64 - 1 units, area finite", huge.clone(), block(u64::MAX, [1e10, 1e10], (1, 1)));
    // 32 square pixels for each; 16 where the product of 1 and 2^63 stops.
    let side = 2f64.powi(34);
    add(edges, "reference of 2^63 units at 2^34 x 2^34 px", huge.clone(), block(1 << 63, [side, side], (1, 1)));
    let mut sheet = Sheet::default();
    let batch = sheet.batch(0, 0, u32::MAX, [0.0, 0.0, 1e20, 1e20]);
    sheet.cell(0, None).batches.push(batch);
    add(edges, "batch of 2^32 - 1, area not finite", huge, sheet);
}

pub fn sizes(edges: &mut Edges) {
    let shapes = [
        (0.5, 0.5), (1.0, 0.5), (0.5, 1.0), (1.0, 1.0), (0.0, 0.0), (0.0, 0.5), (0.99999999, 0.5),
        (0.99999997, 0.99999997), (0.99999994, 0.5), (0.0, 1.0),
    ];
    for (width, height) in shapes {
        let mut sheet = Sheet::default();
        let batch = sheet.batch(0, 0, 1, [0.0, 0.0, width, height]);
        sheet.cell(0, None).batches.push(batch);
        add(edges, format!("batch at {width} x {height} px"), wide(1), sheet);
        // Two members far apart, so that the whole reference does not collapse.
        let mut sheet = block(0, [width, height], (2, 2));
        sheet.references[0].spacing_x = [100.0, 0.0];
        sheet.references[0].spacing_y = [0.0, 100.0];
        add(edges, format!("members at {width} x {height} px"), wide(3), sheet);
    }
    for side in [24.0, 23.99999, 23.999998, 23.999999, 23.9999995, 24.000001, 23.0] {
        add(edges, format!("reference at {side} x 24 px"), wide(3), block(0, [side, 24.0], (1, 1)));
        add(edges, format!("reference at 24 x {side} px"), wide(3), block(0, [24.0, side], (1, 1)));
        let mut sheet = block(0, [side, 24.0], (2, 1));
        sheet.references[0].spacing_x = [100.0, 0.0];
        add(edges, format!("members at {side} x 24 px"), wide(3), sheet);
    }
    not_finite_sizes(edges);
}

fn not_finite_sizes(edges: &mut Edges) {
    for zoom in [2f64.powi(64), 2f64.powi(127), 2f64.powi(128)] {
        let mut sheet = Sheet::default();
        let batch = sheet.batch(0, 0, 1, [0.0, 0.0, 1.0, 1.0]);
        sheet.cell(0, None).batches.push(batch);
        add(edges, format!("batch of 1 x 1 at zoom {zoom:e}"), Query { zoom, ..wide(1) }, sheet);
        let mut sheet = block(0, [1.0, 1.0], (1, 1));
        let text = sheet.text(0, 0, [1.0, 1.0]);
        sheet.cells[1].texts.push(text);
        add(edges, format!("reference of 1 x 1 at zoom {zoom:e}"), Query { zoom, ..wide(3) }, sheet);
        // One side degenerate: the other one is still not finite.
        let mut sheet = block(0, [0.0, 1.0], (1, 1));
        let text = sheet.text(0, 0, [0.0, 1.0]);
        sheet.cells[1].texts.push(text);
        add(edges, format!("reference of 0 x 1 at zoom {zoom:e}"), Query { zoom, ..wide(3) }, sheet);
    }
}
