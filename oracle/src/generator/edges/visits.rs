//! Depths, circles, labels, views and hidden layers.

use super::{Edges, add, block, query, wide};
use crate::generator::boxes::grow_true_boxes;
use crate::generator::encode::{grid, single};
use crate::sheet::{Query, Sheet, Source};

pub fn depths(edges: &mut Edges, depths: &[u32]) {
    for &depth in depths {
        let mut sheet = block(1, [100.0, 100.0], (2, 1));
        let text = sheet.text(0, 0, [5.0, 5.0]);
        sheet.cells[1].texts.push(text);
        grow_true_boxes(&mut sheet);
        add(edges, format!("one reference, depth {depth}"), wide(depth), sheet.clone());
        let away = Query { view: [900.0, 900.0, 901.0, 901.0], ..wide(depth) };
        add(edges, format!("one reference out of view, depth {depth}"), away, sheet.clone());
        sheet.cells[0].bbox = None;
        add(edges, format!("root without a box, depth {depth}"), wide(depth), sheet);
    }
}

/// Two cells that refer to each other, the second one twice, each with a text.
fn circle(edges: &mut Edges, boxed: bool, depth: u32) {
    let side = Some([0.0, 0.0, 100.0, 100.0]);
    let mut sheet = Sheet::default();
    let text = sheet.text(0, 0, [7.0, 7.0]);
    let to_one = sheet.reference(single(Source::Cell(1), side));
    let to_zero = sheet.reference(single(Source::Cell(0), side));
    let zero = sheet.cell(1, side.filter(|_| boxed));
    (zero.texts, zero.references) = (vec![text], vec![to_one]);
    let one = sheet.cell(1, side);
    (one.texts, one.references) = (vec![text], vec![to_zero, to_zero]);
    add(edges, format!("circle of two cells, box {boxed}, depth {depth}"), wide(depth), sheet);
}

pub fn circles(edges: &mut Edges) {
    for boxed in [true, false] {
        for depth in [2, 3, 5, 8] {
            circle(edges, boxed, depth);
        }
    }
    // The same cell twice side by side is no circle.
    let mut sheet = block(1, [100.0, 100.0], (1, 1));
    let text = sheet.text(0, 0, [5.0, 5.0]);
    sheet.cells[1].texts.push(text);
    sheet.cells[0].references = vec![0, 0];
    add(edges, "one cell twice side by side", wide(3), sheet);
}

pub fn deep_circles(edges: &mut Edges) {
    for depth in [33, 48] {
        circle(edges, true, depth);
    }
}

/// Labels of proxies: a cell's number, a missing cell's number, none for other sources.
pub fn labels(edges: &mut Edges) {
    let side = Some([0.0, 0.0, 10.0, 10.0]);
    let mut sheet = Sheet::default();
    let text = sheet.text(0, 0, [0.0, 0.0]);
    let node = sheet.node(0, 0, &[[0.0, 0.0]]);
    let batch = sheet.batch(0, 0, 1, [0.0, 0.0, 10.0, 10.0]);
    let sources = [
        Source::Cell(1), Source::Cell(70_000), Source::Cell(u32::MAX - 1), Source::Batch(batch),
        Source::Text(text), Source::Node(node), Source::Reference(0), Source::Reference(1),
    ];
    for source in sources {
        sheet.reference(single(source, side));
    }
    sheet.cell(0, side).references = (0..8).collect();
    sheet.cell(0, side);
    for depth in [1, 2, 3] {
        add(edges, format!("labels of collapsed references, depth {depth}"), wide(depth), sheet.clone());
        let near = Query { zoom: 3.0, ..wide(depth) };
        add(edges, format!("labels at 30 px, depth {depth}"), near, sheet.clone());
    }
}

/// Views that only touch.
pub fn views(edges: &mut Edges) {
    let mut sheet = Sheet::default();
    let text = sheet.text(0, 0, [10.0, 20.0]);
    let node = sheet.node(0, 1, &[[10.0, 20.0], [50.0, 60.0], [10.0, 60.0]]);
    let batch = sheet.batch(1, 0, 1, [10.0, 20.0, 50.0, 60.0]);
    let side = Some([10.0, 20.0, 50.0, 60.0]);
    let number = sheet.reference(grid(Source::Cell(1), side, (2, 2), [40.0, 40.0]));
    sheet.cell(0, None).references.push(number);
    let cell = sheet.cell(0, side);
    (cell.texts, cell.nodes, cell.batches) = (vec![text], vec![node], vec![batch]);
    grow_true_boxes(&mut sheet);
    let below = f64::from_bits(10f64.to_bits() - 1);
    let above = f64::from_bits(90f64.to_bits() + 1);
    for view in [
        [0.0, 0.0, 10.0, 20.0], [90.0, 100.0, 95.0, 105.0], [0.0, 0.0, below, 100.0], [above, 0.0, 99.0, 100.0],
        [50.0, 60.0, 50.0, 60.0], [50.0, 20.0, 50.0, 20.0], [0.0, 0.0, 100.0, 20.0], [0.0, 100.0, 100.0, 200.0],
        [0.0, 0.0, 10.0, 200.0], [90.0, 0.0, 200.0, 200.0], [-5.0, 101.0, 100.0, 200.0], [0.0, 0.0, 100.0, 19.0],
    ] {
        for depth in [0, 1, 2] {
            add(edges, format!("view {view:?}, depth {depth}"), query(view, 1.0, depth), sheet.clone());
        }
    }
}

/// Hidden layers whose keys are near each other.
pub fn layers(edges: &mut Edges) {
    for hidden in [vec![0x1_0002], vec![0x2_0001], vec![1, 2], vec![0xffff_ffff], vec![0x1_0002, 0x1_0002], vec![0x1_0000, 2]] {
        let mut sheet = Sheet::default();
        let side = Some([0.0, 0.0, 40.0, 40.0]);
        let keys = [(1, 2), (2, 1), (0, 1), (0, 2), (65535, 65535), (1, 0)];
        for (place, (layer, kind)) in keys.into_iter().enumerate() {
            let at = place as f64;
            sheet.text(layer, kind, [at, 1.0]);
            sheet.node(layer, kind, &[[at, 2.0]]);
            sheet.batch(layer, kind, 128, [at, 3.0, at + 30.0, 33.0]);
        }
        for source in [Source::Text(0), Source::Node(1), Source::Batch(0), Source::Batch(1)] {
            sheet.reference(single(source, side));
        }
        let cell = sheet.cell(0, side);
        cell.batches = (0..6).collect();
        cell.texts = (0..6).collect();
        cell.nodes = (0..6).collect();
        cell.references = (0..4).collect();
        let label = format!("hidden {hidden:x?}");
        add(edges, label, Query { hidden, ..wide(2) }, sheet);
    }
}
