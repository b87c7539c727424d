//! Exact placements of square sheets, in whole numbers: document 01's steps without their rounding.
//! Apart from the planner, its stand-ins and the generator.

use crate::sheet::{Reference, Sheet, Source};

/// min x, min y, max x, max y.
pub type Sides = [i128; 4];

#[derive(Clone, Copy, Debug, PartialEq, Eq)]
pub struct Placement {
    pub x_axis: [i128; 2],
    pub y_axis: [i128; 2],
    pub translation: [i128; 2],
}

impl Placement {
    pub const IDENTITY: Self = Self { x_axis: [1, 0], y_axis: [0, 1], translation: [0, 0] };

    fn turned(&self, v: [i128; 2]) -> [i128; 2] {
        std::array::from_fn(|i| self.x_axis[i] * v[0] + self.y_axis[i] * v[1])
    }

    pub fn point(&self, p: [i128; 2]) -> [i128; 2] {
        let turned = self.turned(p);
        std::array::from_fn(|i| turned[i] + self.translation[i])
    }

    pub fn times(&self, child: &Self) -> Self {
        Self {
            x_axis: self.turned(child.x_axis),
            y_axis: self.turned(child.y_axis),
            translation: self.point(child.translation),
        }
    }

    /// The least box around a box, placed.
    pub fn sides(&self, s: Sides) -> Sides {
        around(&[[s[0], s[1]], [s[2], s[1]], [s[2], s[3]], [s[0], s[3]]].map(|p| self.point(p))).unwrap()
    }
}

pub fn around(points: &[[i128; 2]]) -> Option<Sides> {
    points.iter().fold(None, |sides: Option<Sides>, p| {
        let s = sides.unwrap_or([p[0], p[1], p[0], p[1]]);
        Some([s[0].min(p[0]), s[1].min(p[1]), s[2].max(p[0]), s[3].max(p[1])])
    })
}

pub fn encloses(outer: Sides, inner: Sides) -> bool {
    outer[0] <= inner[0] && outer[1] <= inner[1] && outer[2] >= inner[2] && outer[3] >= inner[3]
}

pub fn whole<const N: usize>(values: [f64; N]) -> [i128; N] {
    values.map(|value| value as i128)
}

/// A member of a grid with quarter turns: reflect, rotate, move.
pub fn member(reference: &Reference, column: u32, row: u32) -> Placement {
    let [cos, sin] = whole([reference.cos, reference.sin]);
    let (sx, sy) = (whole(reference.spacing_x), whole(reference.spacing_y));
    let (column, row) = (i128::from(column), i128::from(row));
    let offset = [sx[0] * column + sy[0] * row, sx[1] * column + sy[1] * row];
    let origin = whole(reference.origin);
    Placement {
        x_axis: [cos, sin],
        y_axis: if reference.reflection { [sin, -cos] } else { [-sin, cos] },
        translation: [
            origin[0] + offset[0] * cos - offset[1] * sin,
            origin[1] + offset[0] * sin + offset[1] * cos,
        ],
    }
}

/// `reference_bbox`: the box of a reference's members at its four corners.
pub fn reference_sides(reference: &Reference) -> Option<Sides> {
    let source = whole(reference.bbox?);
    if reference.columns == 0 || reference.rows == 0 {
        return None;
    }
    let (columns, rows) = (u32::from(reference.columns) - 1, u32::from(reference.rows) - 1);
    let mut corners = Vec::new();
    for (column, row) in [(0, 0), (columns, 0), (0, rows), (columns, rows)] {
        let s = member(reference, column, row).sides(source);
        corners.extend([[s[0], s[1]], [s[2], s[3]]]);
    }
    around(&corners)
}

fn is_whole(values: &[f64]) -> bool {
    values.iter().all(|value| value.trunc() == *value && value.abs() <= 2_147_483_648.0)
}

fn is_box(sides: &[f64; 4]) -> bool {
    is_whole(sides) && sides[0] <= sides[2] && sides[1] <= sides[3]
}

/// Document 01's *square*.
pub fn is_square(sheet: &Sheet) -> bool {
    let turn = |r: &Reference| {
        matches!((r.cos, r.sin), (1.0 | -1.0, 0.0) | (0.0, 1.0 | -1.0)) && r.magnification == 1.0
    };
    sheet.batches.iter().all(|batch| is_box(&batch.bbox))
        && sheet.texts.iter().all(|text| is_whole(&text.origin))
        && sheet.nodes.iter().all(|node| node.points.iter().all(|point| is_whole(point)))
        && sheet.references.iter().all(|r| {
            turn(r)
                && is_whole(&r.origin)
                && is_whole(&r.spacing_x)
                && is_whole(&r.spacing_y)
                && r.bbox.iter().all(is_box)
        })
        && sheet.cells.iter().all(|cell| cell.bbox.iter().all(is_box))
}

/// Document 01's *true boxes*, of a square sheet.
pub fn has_true_boxes(sheet: &Sheet) -> bool {
    sheet.references.iter().all(|reference| source_box_is_true(sheet, reference))
        && (0..sheet.cells.len()).all(|number| cell_box_is_true(sheet, number))
}

fn source_box_is_true(sheet: &Sheet, reference: &Reference) -> bool {
    let own = reference.bbox.map(whole);
    match reference.source {
        Source::Batch(number) => {
            let batch = &sheet.batches[number as usize];
            batch.elements == 0 || own.is_some_and(|sides| encloses(sides, whole(batch.bbox)))
        }
        Source::Text(number) => own == around(&[whole(sheet.texts[number as usize].origin)]),
        Source::Node(number) => own == around(&node_points(sheet, number)),
        Source::Reference(number) => own == reference_sides(&sheet.references[number as usize]),
        Source::Cell(number) => {
            own == sheet.cells.get(number as usize).and_then(|cell| cell.bbox).map(whole)
        }
    }
}

pub fn node_points(sheet: &Sheet, number: u32) -> Vec<[i128; 2]> {
    sheet.nodes[number as usize].points.iter().map(|&point| whole(point)).collect()
}

fn cell_box_is_true(sheet: &Sheet, number: usize) -> bool {
    let cell = &sheet.cells[number];
    let mut held: Vec<Sides> = Vec::new();
    for &batch in &cell.batches {
        let batch = &sheet.batches[batch as usize];
        if batch.elements > 0 {
            held.push(whole(batch.bbox));
        }
    }
    held.extend(cell.texts.iter().filter_map(|&text| around(&[whole(sheet.texts[text as usize].origin)])));
    held.extend(cell.nodes.iter().filter_map(|&node| around(&node_points(sheet, node))));
    held.extend(cell.references.iter().filter_map(|&r| reference_sides(&sheet.references[r as usize])));
    match cell.bbox {
        Some(sides) => held.iter().all(|&inner| encloses(whole(sides), inner)),
        None => held.is_empty(),
    }
}
