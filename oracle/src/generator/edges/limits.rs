//! Limit tests of the code that no other case meets on both sides, found by oracle/limits/run.

use super::{Edges, add, block, query, wide};
use crate::generator::encode::{grid, single};
use crate::sheet::{Query, Sheet, Source};

const ALL: [f64; 4] = [f64::MIN, f64::MIN, f64::MAX, f64::MAX];
/// The cosine and the sine of an eighth turn.
const EIGHTH: f64 = std::f64::consts::FRAC_1_SQRT_2;

pub fn limits(edges: &mut Edges) {
    fused(edges);
    touching(edges);
    touching_boxes(edges);
    touching_members(edges);
    views(edges);
    one_float(edges);
    degenerate(edges);
    density(edges);
    narrow_grids(edges);
    greatest_size(edges);
    empty_grid_in_a_circle(edges);
    dense_member(edges);
}

/// Fused sums x * y + z at the steps of the fused operation: a text's position is such a sum where the cosine is y and the sine -1.
fn fused(edges: &mut Edges) {
    for (label, x, y, z) in [
        ("just above half of the least float", 0x1e60_0000_0400_0000, 0x1e4f_ffff_f800_0002, 0),
        ("a double that overflows alone", 0x7fe0_0000_0000_0000, 0x4000_0000_0000_0000, 0xfe70_0000_0000_0000),
        ("a quarter of what is subnormal", 2, 0x3fd0_0000_0000_0000, 1),
        ("cancelled to one unit", 0x41bf_ffff_ffff_ffff, 0x3fff_f000_0000_0000, 0xc1cf_efff_ffff_ffff),
        ("carry from the low word", 0x4170_0002_0000_0000, 0x3eaf_ffff_ffff_ffff, 0x3f5f_ffff_ffff_ffff),
        ("low words that fill one", 0x66bf_ffff_ffff_ffff, 0x4390_0000_0000_0010, 0x640f_ffff_ffff_ffff),
        ("low words one above", 0x41b0_0000_0000_0020, 0x3eff_ffff_ffff_ffff, 0x3a80_0000_0000_0000),
        ("carry that decides a tie", 0x7330_0000_0008_0000, 0xc02f_ffff_ff80_0000, 0xf160_0000_8040_0000),
        ("terms 64 apart", 0x703a_3246_a744_e615, 0x1cbc_8c81_f2c3_4a99, 0x5110_0000_0000_0000),
        ("terms 128 apart", 0x03c0_0000_0040_0000, 0x3fcf_ffff_fff0_0000, 0x0bb0_0000_0000_0003),
    ] {
        let [x, y, z] = [x, y, z].map(f64::from_bits);
        let mut sheet = Sheet::default();
        let text = sheet.text(0, 0, [0.0, 0.0]);
        let mut reference = grid(Source::Text(text), Some([0.0; 4]), (2, 1), [0.0, 0.0]);
        (reference.spacing_x, reference.cos, reference.sin) = ([x, z], y, -1.0);
        let number = sheet.reference(reference);
        sheet.cell(0, None).references.push(number);
        add(edges, format!("fused limit, {label}"), query(ALL, 1.0, 2), sheet);
    }
}

/// Views that touch a text, a node point or a box, and views one float away from them, on each side.
fn touching(edges: &mut Edges) {
    let mut sheet = Sheet::default();
    let text = sheet.text(0, 0, [10.0, 20.0]);
    let node = sheet.node(0, 1, &[[10.0, 20.0]]);
    let batch = sheet.batch(1, 0, 1, [10.0, 20.0, 50.0, 60.0]);
    let root = sheet.cell(0, None);
    (root.texts, root.nodes, root.batches) = (vec![text], vec![node], vec![batch]);
    for (side, edge, low) in [(0, 10.0, true), (1, 20.0, true), (2, 10.0, false), (3, 20.0, false), (0, 50.0, true), (1, 60.0, true)] {
        let away: f64 = if low { f64::next_up(edge) } else { f64::next_down(edge) };
        for (word, value) in [("at", edge), ("one float away from", away)] {
            let mut view = [0.0, 0.0, 100.0, 100.0];
            view[side] = value;
            let label = format!("view with side {side} {word} {edge}");
            add(edges, label, query(view, 1.0, 1), sheet.clone());
        }
    }
}

/// A view that a box of 10, 20, 50, 60 touches on a side, and one that is a float away from it.
fn views_beside() -> Vec<(String, [f64; 4])> {
    let mut views = Vec::new();
    for (side, edge) in [(0, 50.0), (1, 60.0), (2, 10.0), (3, 20.0)] {
        let away: f64 = if side < 2 { f64::next_up(edge) } else { f64::next_down(edge) };
        for (word, value) in [("at", edge), ("one float away from", away)] {
            let mut view = [0.0, 0.0, 100.0, 100.0];
            view[side] = value;
            views.push((format!("view with side {side} {word}"), view));
        }
    }
    views
}

/// The boxes of a root, of a cell and of a reference beside the view.
fn touching_boxes(edges: &mut Edges) {
    let side = Some([10.0, 20.0, 50.0, 60.0]);
    for (word, view) in views_beside() {
        let mut sheet = Sheet::default();
        sheet.cell(0, side);
        for depth in [0, 1] {
            add(edges, format!("{word} a root, depth {depth}"), query(view, 1.0, depth), sheet.clone());
        }
        let mut sheet = Sheet::default();
        let number = sheet.reference(single(Source::Cell(1), side));
        sheet.cell(0, None).references.push(number);
        sheet.cell(0, side);
        add(edges, format!("{word} a reference"), query(view, 1.0, 1), sheet);
    }
}

/// One of two members beside the view, the other in it.
fn touching_members(edges: &mut Edges) {
    let side = Some([10.0, 20.0, 50.0, 60.0]);
    for (place, (word, view)) in views_beside().into_iter().enumerate() {
        let mut sheet = Sheet::default();
        let mut reference = grid(Source::Cell(7), side, (2, 1), [0.0, 0.0]);
        // The other member stands towards the view.
        reference.spacing_x = [[30.0, 0.0], [0.0, 30.0], [-30.0, 0.0], [0.0, -30.0]][place / 2];
        let number = sheet.reference(reference);
        sheet.cell(0, None).references.push(number);
        add(edges, format!("{word} one of two members"), query(view, 1.0, 2), sheet);
    }
}

/// Views that are not finite on one side, or whose least edge is one float above the greatest, and views at the greatest floats.
fn views(edges: &mut Edges) {
    for (side, edge) in [(1, f64::NEG_INFINITY), (3, f64::INFINITY)] {
        let mut view = [0.0, 0.0, 1.0, 1.0];
        view[side] = edge;
        add(edges, format!("view with side {side} at {edge}"), query(view, 1.0, 1), Sheet::default());
    }
    for side in [0, 1] {
        let mut view = [1.0; 4];
        view[side] = f64::next_up(1.0);
        add(edges, format!("view with side {side} one float above the other"), query(view, 1.0, 1), Sheet::default());
        for edge in [f64::MIN, f64::MAX] {
            let mut view = [0.0; 4];
            (view[side], view[side + 2]) = (edge, edge);
            add(edges, format!("view with side {side} and the other at {edge:e}"), query(view, 1.0, 1), Sheet::default());
        }
    }
}

/// Boxes one float wide or high: every corner counts.
fn one_float(edges: &mut Edges) {
    let next = f64::next_up(1.0);
    for bbox in [[1.0, 0.0, next, 64.0], [0.0, 1.0, 64.0, next]] {
        let mut sheet = Sheet::default();
        let batch = sheet.batch(0, 0, 128, bbox);
        sheet.cell(0, None).batches.push(batch);
        add(edges, format!("dense batch of {bbox:?}"), wide(1), sheet);
    }
}

/// Source boxes without width or height, which count as 24 px, and those that have one float of it.
fn degenerate(edges: &mut Edges) {
    let least = f64::from_bits(1);
    for (width, height) in [(30.0, 0.0), (0.0, 30.0), (30.0, least), (least, 30.0)] {
        let mut sheet = Sheet::default();
        let text = sheet.text(0, 0, [0.0, 0.0]);
        let number = sheet.reference(single(Source::Text(text), Some([0.0, 0.0, width, height])));
        sheet.cell(0, None).references.push(number);
        add(edges, format!("source box of {width:e} x {height:e}"), wide(2), sheet);
    }
    // 24 x 128 px leave 16 square pixels to each of 192.
    for units in [191, 192] {
        add(edges, format!("source box of 0 x 128 with {units} units"), wide(3), block(units, [0.0, 128.0], (1, 1)));
        add(edges, format!("source box of 128 x 0 with {units} units"), wide(3), block(units, [128.0, 0.0], (1, 1)));
    }
}

/// 16 square pixels for each of 128, and the next float above.
fn density(edges: &mut Edges) {
    for height in [32.0, 32.0 * (1.0 + f64::from(f32::EPSILON))] {
        add(edges, format!("reference of 128 units at exactly 64 x {height} px"), wide(3), block(128, [64.0, height], (1, 1)));
        let mut sheet = Sheet::default();
        let batch = sheet.batch(0, 0, 128, [0.0, 0.0, 64.0, height]);
        sheet.cell(0, None).batches.push(batch);
        add(edges, format!("batch of 128 at exactly 64 x {height} px"), wide(1), sheet);
    }
}

/// Two members, side by side, of which the whole is one float narrower, or lower, than 24 px: one box stands for both.
fn narrow_grids(edges: &mut Edges) {
    let below = f64::from(24f32.next_down());
    for (sides, spacing, shape) in [([below, 30.0], [0.0, 100.0], (1, 2)), ([30.0, below], [100.0, 0.0], (2, 1))] {
        let mut sheet = block(0, sides, shape);
        (sheet.references[0].spacing_x, sheet.references[0].spacing_y) = ([spacing[0], 0.0], [0.0, spacing[1]]);
        add(edges, format!("two members of {} x {} px", sides[0], sides[1]), wide(3), sheet);
    }
}

/// A side of the greatest size in pixels that single precision has.
fn greatest_size(edges: &mut Edges) {
    for [width, height] in [[1.0, 0.5], [0.5, 1.0]] {
        let mut sheet = Sheet::default();
        let batch = sheet.batch(0, 0, 1, [0.0, 0.0, width, height]);
        sheet.cell(0, None).batches.push(batch);
        let query = Query { zoom: f64::from(f32::MAX), ..wide(1) };
        add(edges, format!("batch of {width} x {height} at the greatest size"), query, sheet);
    }
}

/// A grid without members counts nothing of its source, so nothing is remembered of the circle behind it.
fn empty_grid_in_a_circle(edges: &mut Edges) {
    let side = Some([0.0, 0.0, 64.0, 32.0]);
    for shape in [(0, 1), (1, 0), (1, 1)] {
        for depth in [4, 5] {
            let mut sheet = Sheet::default();
            let to_one = sheet.reference(grid(Source::Cell(1), side, shape, [0.0, 0.0]));
            let to_zero = sheet.reference(single(Source::Cell(0), side));
            let inner = sheet.reference(single(Source::Cell(1), side));
            let outer = sheet.reference(single(Source::Reference(inner), side));
            let direct = sheet.reference(single(Source::Cell(0), side));
            sheet.cell(100, side).references.push(to_one);
            sheet.cell(100, side).references.push(to_zero);
            sheet.cell(0, None).references = vec![direct, outer];
            let label = format!("circle behind a grid of {} x {}, depth {depth}", shape.0, shape.1);
            add(edges, label, Query { root: 2, ..wide(depth) }, sheet);
        }
    }
}

/// A single member whose own box is denser than its reference's, which two eighth turns widen: its share of the units is all of them.
fn dense_member(edges: &mut Edges) {
    for units in [127, 128, 200] {
        let mut sheet = Sheet::default();
        let mut inner = single(Source::Cell(2), Some([0.0, 0.0, 64.0, 32.0]));
        (inner.cos, inner.sin) = (EIGHTH, -EIGHTH);
        let inner = sheet.reference(inner);
        let mut outer = single(Source::Cell(1), Some([-100.0, -100.0, 100.0, 100.0]));
        (outer.cos, outer.sin) = (EIGHTH, EIGHTH);
        let outer = sheet.reference(outer);
        sheet.cell(0, None).references.push(outer);
        sheet.cell(0, None).references.push(inner);
        sheet.cell(units, None);
        add(edges, format!("member of {units} units below two eighth turns"), wide(4), sheet);
    }
}
