//! Draw units, what is remembered of them, and the cell limit.

use super::{Edges, add, block, wide};
use crate::generator::encode::{grid, single};
use crate::sheet::{Query, Sheet, Source};

/// The root's reference holds cell 1, whose count decides at 64 x 32 px whether it collapses.
fn counted(direct: u64, inner: impl FnOnce(&mut Sheet) -> Vec<u32>) -> Sheet {
    let mut sheet = Sheet::default();
    let bbox = Some([0.0, 0.0, 64.0, 32.0]);
    let number = sheet.reference(single(Source::Cell(1), bbox));
    sheet.cell(0, None).references.push(number);
    sheet.cell(direct, bbox);
    let references = inner(&mut sheet);
    sheet.cells[1].references = references;
    sheet
}

pub fn units(edges: &mut Edges) {
    unused(edges);
    for (shape, direct) in [((0, 3), 127), ((3, 0), 127), ((0, 0), 128), ((1, 1), 126), ((1, 1), 127)] {
        let sheet = counted(direct, |sheet| {
            sheet.cell(90, None);
            vec![sheet.reference(grid(Source::Cell(2), None, shape, [1.0, 1.0]))]
        });
        for depth in [2, 3] {
            let label = format!("{direct} units and a {} x {} grid, depth {depth}", shape.0, shape.1);
            add(edges, label, wide(depth), sheet.clone());
        }
    }
    for direct in [126, 127] {
        let sheet = counted(direct, |sheet| vec![sheet.reference(single(Source::Cell(77), None))]);
        add(edges, format!("{direct} units and a missing cell"), wide(4), sheet);
        let sheet = counted(direct, |sheet| vec![sheet.reference(single(Source::Cell(1), None))]);
        add(edges, format!("{direct} units and itself"), wide(4), sheet);
        let sheet = counted(direct, |sheet| {
            let text = sheet.text(0, 0, [0.0, 0.0]);
            vec![sheet.reference(single(Source::Text(text), None))]
        });
        add(edges, format!("{direct} units and a text by reference"), wide(4), sheet);
        let sheet = counted(direct, |sheet| {
            let node = sheet.node(0, 0, &[[0.0, 0.0], [1.0, 1.0], [2.0, 2.0]]);
            vec![sheet.reference(single(Source::Node(node), None))]
        });
        add(edges, format!("{direct} units and a node by reference"), wide(4), sheet);
    }
    for depth in [2, 3, 4] {
        let sheet = counted(122, |sheet| {
            let inner = sheet.reference(grid(Source::Cell(77), None, (2, 3), [1.0, 1.0]));
            vec![sheet.reference(single(Source::Reference(inner), None))]
        });
        add(edges, format!("122 units and an inner 2 x 3 grid, depth {depth}"), wide(depth), sheet);
    }
    saturation(edges);
    shares(edges);
    block_of_unused_sites(edges);
}

/// Sources that count 0: a reference of them counts 0 from depth 2 on, and one a member at depth 1. And two that count 1: a cell
/// with 0 that holds one with 1, and a batch of no elements.
fn unused(edges: &mut Edges) {
    let nothing = Source::Cell(2);
    let two_by_three = |source| grid(source, None, (2, 3), [1.0, 1.0]);
    for direct in [121, 122, 127] {
        let sheet = counted(direct, |sheet| {
            sheet.cell(0, None);
            vec![sheet.reference(two_by_three(nothing))]
        });
        for depth in [2, 3, 4, 32] {
            let label = format!("{direct} units and a 2 x 3 grid of a cell with 0, depth {depth}");
            add(edges, label, wide(depth), sheet.clone());
        }
    }
    for depth in [3, 4, 5] {
        let sheet = counted(127, |sheet| {
            sheet.cell(0, None);
            let inner = sheet.reference(two_by_three(nothing));
            vec![sheet.reference(two_by_three(Source::Reference(inner)))]
        });
        add(edges, format!("127 units and an inner 2 x 3 grid of a cell with 0, depth {depth}"), wide(depth), sheet);
    }
    let sheet = counted(127, |sheet| {
        let inner = sheet.reference(grid(Source::Cell(77), None, (0, 3), [1.0, 1.0]));
        vec![sheet.reference(single(Source::Reference(inner), None))]
    });
    add(edges, "127 units and an inner grid of 0 x 3", wide(4), sheet);
    let sheet = counted(127, |sheet| {
        sheet.cell(0, None);
        vec![sheet.reference(single(nothing, None)), sheet.reference(single(nothing, None))]
    });
    add(edges, "127 units and twice a cell with 0", wide(4), sheet);
    let sheet = counted(127, |sheet| {
        let inner = sheet.reference(single(Source::Cell(3), None));
        sheet.cell(0, None).references.push(inner);
        sheet.cell(1, None);
        vec![sheet.reference(single(nothing, None))]
    });
    add(edges, "127 units and a cell with 0 that holds one with 1", wide(4), sheet);
    for direct in [126, 127] {
        let sheet = counted(direct, |sheet| {
            let batch = sheet.batch(0, 0, 0, [0.0, 0.0, 1.0, 1.0]);
            vec![sheet.reference(single(Source::Batch(batch), None))]
        });
        add(edges, format!("{direct} units and a batch of no elements by reference"), wide(4), sheet);
    }
}

/// A block that holds a field of 26 x 26 sites, each a frame and nothing else, beside two cells that draw. With a unit a site
/// the block is dense at zoom 0.24, where a site is under one pixel, and the field at zoom 0.8.
fn block_of_unused_sites(edges: &mut Edges) {
    let mut sheet = Sheet::default();
    let (frame, used) = (Some([0.0, 0.0, 4.0, 4.0]), [0.0, 0.0, 128.0, 128.0]);
    let field = sheet.reference(grid(Source::Cell(2), frame, (26, 26), [4.0, 4.0]));
    let mut array = grid(Source::Cell(3), Some(used), (1, 2), [0.0, 128.0]);
    array.origin = [104.0, 0.0];
    let array = sheet.reference(array);
    let side = Some([0.0, 0.0, 232.0, 256.0]);
    let block = sheet.reference(single(Source::Cell(1), side));
    let (batch, text) = (sheet.batch(1, 0, 1, used), sheet.text(2, 0, [64.0, 64.0]));
    sheet.cell(0, side).references.push(block);
    sheet.cell(0, side).references = vec![field, array];
    sheet.cell(0, frame);
    let cell = sheet.cell(2, Some(used));
    (cell.batches, cell.texts) = (vec![batch], vec![text]);
    for (zoom, depth) in [(0.24, 2), (0.24, 4), (0.8, 4), (6.0, 4)] {
        let label = format!("block of 676 unused sites and two cells, zoom {zoom}, depth {depth}");
        add(edges, label, Query { zoom, ..wide(depth) }, sheet.clone());
    }
}

/// Counts that stop at 2^64 - 1 instead of wrapping to little.
fn saturation(edges: &mut Edges) {
    let sheet = counted(1, |sheet| {
        sheet.cell(u64::MAX, None);
        vec![sheet.reference(single(Source::Cell(2), None))]
    });
    add(edges, "1 and 2^64 - 1 units", wide(4), sheet);
    let sheet = counted(0, |sheet| {
        sheet.cell(1 << 63, None);
        vec![sheet.reference(grid(Source::Cell(2), None, (2, 1), [1.0, 1.0]))]
    });
    add(edges, "twice 2^63 units", wide(4), sheet);
    let sheet = counted(0, |sheet| {
        sheet.cell(1 << 40, None);
        vec![sheet.reference(grid(Source::Cell(2), None, (32767, 32767), [1.0, 1.0]))]
    });
    add(edges, "2^40 units in 32,767 x 32,767 members", wide(4), sheet);
}

/// A member's share of the count: the whole is not dense, a member may be. And 128 close members, which are dense with a unit each.
fn shares(edges: &mut Edges) {
    for units in [127, 128, 200] {
        for spacing in [64.0, 200.0] {
            let mut sheet = block(units, [64.0, 32.0], (2, 2));
            sheet.references[0].spacing_x = [spacing, 0.0];
            sheet.references[0].spacing_y = [0.0, spacing];
            let text = sheet.text(0, 0, [1.0, 1.0]);
            sheet.cells[1].texts.push(text);
            add(edges, format!("members of {units} units, {spacing} apart"), wide(3), sheet);
        }
    }
    let mut sheet = block(0, [24.0, 24.0], (16, 8));
    sheet.references[0].spacing_x = [1000.0, 0.0];
    add(edges, "128 members of a cell with 0 units", wide(3), sheet);
    for units in [0, 1] {
        let mut sheet = block(units, [24.0, 24.0], (16, 8));
        sheet.references[0].spacing_x = [1.0, 0.0];
        sheet.references[0].spacing_y = [0.0, 1.0];
        add(edges, format!("128 members of a cell with {units} units, close"), wide(3), sheet);
    }
}

/// "Cells 0 and 1 refer to each other once": what is remembered decides whether the second reference collapses.
pub fn memory_of_counts(edges: &mut Edges) {
    for (first, second) in [(5, 7), (60, 70), (70, 60), (100, 120)] {
        for order in [[0, 1], [1, 0]] {
            for depth in 3..=6 {
                counts_in_a_circle(edges, (first, second), order, depth);
            }
        }
    }
    for depth in 4..=7 {
        for units in [40, 63, 70, 126] {
            below_an_open_cell(edges, units, depth);
        }
    }
}

/// The same at depths above 32: what is remembered has places for each.
pub fn deep_memory(edges: &mut Edges) {
    for depth in [33, 34, 48] {
        for order in [[0, 1], [1, 0]] {
            counts_in_a_circle(edges, (60, 70), order, depth);
        }
        for units in [63, 70] {
            below_an_open_cell(edges, units, depth);
        }
    }
}

fn counts_in_a_circle(edges: &mut Edges, (first, second): (u64, u64), order: [usize; 2], depth: u32) {
    let side = Some([0.0, 0.0, 64.0, 32.0]);
    let mut sheet = Sheet::default();
    let to_one = sheet.reference(single(Source::Cell(1), side));
    let to_zero = sheet.reference(single(Source::Cell(0), side));
    let inner = sheet.reference(single(Source::Cell(1), side));
    let outer = sheet.reference(single(Source::Reference(inner), side));
    let direct = sheet.reference(single(Source::Cell(0), side));
    sheet.cell(first, side).references.push(to_one);
    sheet.cell(second, side).references.push(to_zero);
    let listed = [direct, outer];
    sheet.cell(0, None).references = order.map(|place: usize| listed[place]).to_vec();
    let label = format!("circle of {first} and {second} units, order {order:?}, depth {depth}");
    add(edges, label, Query { root: 2, ..wide(depth) }, sheet);
}

/// A remembered count is taken even where its cell is open.
fn below_an_open_cell(edges: &mut Edges, units: u64, depth: u32) {
    let side = Some([0.0, 0.0, 64.0, 32.0]);
    let mut sheet = Sheet::default();
    let to_one = sheet.reference(single(Source::Cell(1), side));
    let to_zero = sheet.reference(single(Source::Cell(0), side));
    let direct = sheet.reference(single(Source::Cell(0), side));
    let second = sheet.reference(single(Source::Reference(direct), side));
    let third = sheet.reference(single(Source::Reference(second), side));
    sheet.cell(units, side).references.push(to_one);
    sheet.cell(1, side).references.push(to_zero);
    sheet.cell(0, None).references = vec![third, direct, second];
    let label = format!("remembered below an open cell of {units} units, depth {depth}");
    add(edges, label, Query { root: 2, ..wide(depth) }, sheet);
}

/// 20,000 cells in detail without one record: grids of a cell that holds only its box.
pub fn cell_limit(edges: &mut Edges) {
    for last in [3613, 3614, 3615, 3616, 3620] {
        for boxed in [true, false] {
            let side = Some([0.0, 0.0, 24.0, 24.0]);
            let mut sheet = Sheet::default();
            for shape in [(64, 128), (64, 128), (1, last), (1, 1)] {
                sheet.reference(grid(Source::Cell(1), side, shape, [24.0, 24.0]));
            }
            let text = sheet.text(0, 0, [1.0, 1.0]);
            sheet.reference(single(Source::Text(text), Some([1.0, 1.0, 1.0, 1.0])));
            sheet.reference(single(Source::Reference(3), side));
            sheet.cell(0, None).references = vec![0, 1, 2, 4, 3, 5];
            sheet.cell(0, side.filter(|_| boxed));
            add(edges, format!("cell limit, {last} in the last grid, box {boxed}"), wide(4), sheet);
        }
    }
}
