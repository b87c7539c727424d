//! Rounding, quarter turns, and sums that are no number.

use super::{Edges, add, query, wide};
use crate::generator::boxes::grow_true_boxes;
use crate::generator::encode::{QUARTERS, grid, single};
use crate::sheet::{Query, Sheet, Source};

/// One text below one turned reference; a fused sum that a plain one loses.
pub fn numbers(edges: &mut Edges) {
    let up = 1.0 + f64::EPSILON;
    let down = 1.0 - f64::EPSILON;
    for (label, spacing, cos, sin) in [
        ("fused difference of -2^-104", [up, 1.0], down, 1.0),
        ("fused sum of -2^-104", [up, 1.0], -1.0, down),
        ("fused sum with the signs turned", [-up, 1.0], 1.0, down),
        ("fused third", [1.0 / 3.0, 0.1], 0.3, 0.7),
    ] {
        let mut sheet = Sheet::default();
        let text = sheet.text(0, 0, [0.0, 0.0]);
        let mut reference = grid(Source::Text(text), Some([0.0; 4]), (2, 1), [0.0, 0.0]);
        (reference.spacing_x, reference.cos, reference.sin) = (spacing, cos, sin);
        let number = sheet.reference(reference);
        sheet.cell(0, None).references.push(number);
        add(edges, label, query([-4.0, -4.0, 4.0, 4.0], 1.0, 2), sheet);
    }
    // Rounding in the placement: the sum before the translation, and no fused product.
    for (label, turn, point, origin) in [
        ("sum before translation", (1.0, 1.0), [1e16, 1.0], [-1e16, 0.0]),
        ("sum before translation, small", (0.1, 0.3), [0.1, 0.7], [0.3, 1e-17]),
        ("placement is not fused", (down, 0.0), [up, 0.0], [-1.0, 0.0]),
        ("placement is not fused in the first product", (up, 1.0), [down, 1.0], [0.0, 0.0]),
    ] {
        for magnification in [1.0, 3.0] {
            let mut sheet = Sheet::default();
            let text = sheet.text(0, 0, point);
            let mut inner = single(Source::Text(text), Some([point[0], point[1], point[0], point[1]]));
            (inner.cos, inner.sin, inner.origin) = (turn.0, turn.1, origin);
            inner.magnification = magnification;
            let inner = sheet.reference(inner);
            let mut outer = single(Source::Reference(inner), Some([-1e17, -1e17, 1e17, 1e17]));
            (outer.cos, outer.sin, outer.origin) = (turn.1, turn.0, [0.1, 0.2]);
            let outer = sheet.reference(outer);
            sheet.cell(0, None).references.extend([inner, outer]);
            let query = query([-1e18, -1e18, 1e18, 1e18], 1.0, 4);
            add(edges, format!("{label}, magnification {magnification}"), query, sheet);
        }
    }
    quarters(edges);
}

/// Each quarter turn, reflected or not, with slanted spacings: the spacing is rotated and not reflected.
fn quarters(edges: &mut Edges) {
    for (cos, sin) in QUARTERS {
        for reflection in [false, true] {
            let mut sheet = Sheet::default();
            let text = sheet.text(0, 0, [3.0, 1.0]);
            let node = sheet.node(1, 0, &[[5.0, 2.0], [-1.0, 0.0]]);
            let batch = sheet.batch(2, 0, 1, [0.0, 0.0, 7.0, 4.0]);
            for source in [Source::Text(text), Source::Node(node), Source::Batch(batch)] {
                let mut reference = grid(source, None, (2, 2), [0.0, 0.0]);
                (reference.cos, reference.sin, reference.reflection) = (cos, sin, reflection);
                (reference.spacing_x, reference.spacing_y) = ([100.0, 10.0], [-20.0, 200.0]);
                reference.origin = [1000.0, 2000.0];
                sheet.reference(reference);
            }
            sheet.cell(3, None).references = vec![0, 1, 2];
            grow_true_boxes(&mut sheet);
            let label = format!("turn {cos} {sin}, reflection {reflection}");
            add(edges, label, Query { zoom: 16.0, ..wide(3) }, sheet);
        }
    }
}

/// Sums that are no number, or infinite, on the way to a box.
pub fn not_a_number(edges: &mut Edges) {
    let all = [f64::MIN, f64::MIN, f64::MAX, f64::MAX];
    let far = 1.7e308;
    let boxes = [
        [0.0, 0.0, 1.0, 1.0], [-1.0, -1.0, 0.0, 0.0], [-far, -far, far, far], [0.0, -1.0, 2.0, 1.0],
        [-0.0, 0.0, 0.0, -0.0], [0.5, 0.5, 0.5, 30.0],
    ];
    for (number, bbox) in boxes.into_iter().enumerate() {
        for (magnification, spacing) in [(1.0, far), (far, 1.0), (-far, far), (1e-300, 1e-320), (-0.0, 0.0), (1.0, -far)] {
            let mut sheet = Sheet::default();
            let text = sheet.text(0, 0, [bbox[0], bbox[1]]);
            let batch = sheet.batch(0, 0, 1, bbox);
            let mut numbers = Vec::new();
            for (source, cos, sin) in [
                (Source::Cell(1), 1.0, 0.0), (Source::Cell(1), 0.0, -1.0), (Source::Text(text), 1e200, -1e200),
                (Source::Batch(batch), -0.0, 1.0), (Source::Cell(1), 2.0, 2.0),
            ] {
                let mut reference = grid(source, Some(bbox), (3, 2), [spacing, spacing]);
                (reference.magnification, reference.cos, reference.sin) = (magnification, cos, sin);
                reference.spacing_y = [-spacing, spacing];
                numbers.push(sheet.reference(reference));
            }
            sheet.cell(0, None).references = numbers;
            let cell = sheet.cell(0, Some(bbox));
            (cell.texts, cell.batches) = (vec![text], vec![batch]);
            for zoom in [1.0, 40.0] {
                let label = format!("box {number}, magnification {magnification:e}, spacing {spacing:e}, zoom {zoom}");
                add(edges, label, query(all, zoom, 3), sheet.clone());
            }
        }
    }
}

/// Boxes of which one corner is no number and the others are: what comes after it counts.
pub fn corners(edges: &mut Edges) {
    let far = 1e200;
    for bbox in [[0.0, -far, far, 0.0], [0.0, 0.0, far, far], [-far, 0.0, 0.0, far], [-far, -far, 0.0, 0.0]] {
        for (cos, sin) in [(far, far), (far, -far), (-far, far), (-far, -far)] {
            for reflection in [false, true] {
                let mut sheet = Sheet::default();
                let mut reference = single(Source::Cell(7), Some(bbox));
                (reference.cos, reference.sin, reference.reflection) = (cos, sin, reflection);
                let number = sheet.reference(reference);
                sheet.cell(0, None).references.push(number);
                let label = format!("corners of {bbox:?}, turn {cos:e} {sin:e}, reflection {reflection}");
                add(edges, label, query([f64::MIN, f64::MIN, f64::MAX, f64::MAX], 1.0, 1), sheet);
            }
        }
    }
}
