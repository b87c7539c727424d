//! True boxes for a generated sheet, by plain float arithmetic of the generator's own.
//! On square sheets of moderate size every step is exact; elsewhere the boxes are near the true ones.

use crate::sheet::{Reference, Sheet, Source};

pub type Sides = [f64; 4];

pub fn join(a: Option<Sides>, b: Option<Sides>) -> Option<Sides> {
    match (a, b) {
        (Some(a), Some(b)) => {
            Some([a[0].min(b[0]), a[1].min(b[1]), a[2].max(b[2]), a[3].max(b[3])])
        }
        (a, b) => a.or(b),
    }
}

fn around(points: &[[f64; 2]]) -> Option<Sides> {
    points.iter().fold(None, |sides, p| join(sides, Some([p[0], p[1], p[0], p[1]])))
}

/// Where a member puts a point.
pub fn member_point(reference: &Reference, column: u16, row: u16, point: [f64; 2]) -> [f64; 2] {
    let (cos, sin, m) = (reference.cos, reference.sin, reference.magnification);
    let (column, row) = (f64::from(column), f64::from(row));
    let offset: [f64; 2] = std::array::from_fn(|i| {
        reference.spacing_x[i] * column + reference.spacing_y[i] * row
    });
    let flip = if reference.reflection { -1.0 } else { 1.0 };
    let (x, y) = (point[0] * m + offset[0], point[1] * m * flip + offset[1]);
    [x * cos - y * sin + reference.origin[0], x * sin + y * cos + reference.origin[1]]
}

/// The box of a whole reference around the box of its source.
pub fn reference_box(reference: &Reference, source: Sides) -> Option<Sides> {
    if reference.columns == 0 || reference.rows == 0 {
        return None;
    }
    let mut points = Vec::new();
    for column in [0, reference.columns - 1] {
        for row in [0, reference.rows - 1] {
            for (x, y) in [(0, 1), (2, 1), (2, 3), (0, 3)] {
                points.push(member_point(reference, column, row, [source[x], source[y]]));
            }
        }
    }
    around(&points)
}

fn source_box(sheet: &Sheet, number: usize) -> Option<Sides> {
    let reference = &sheet.references[number];
    match reference.source {
        Source::Batch(batch) => {
            let batch = &sheet.batches[batch as usize];
            if batch.elements == 0 { reference.bbox } else { join(reference.bbox, Some(batch.bbox)) }
        }
        Source::Text(text) => around(&[sheet.texts[text as usize].origin]),
        Source::Node(node) => around(&sheet.nodes[node as usize].points),
        Source::Reference(inner) => {
            let inner = &sheet.references[inner as usize];
            inner.bbox.and_then(|source| reference_box(inner, source))
        }
        Source::Cell(cell) => sheet.cells.get(cell as usize).and_then(|cell| cell.bbox),
    }
}

fn cell_box(sheet: &Sheet, number: usize) -> Option<Sides> {
    let cell = &sheet.cells[number];
    let mut sides = cell.bbox;
    for &batch in &cell.batches {
        let batch = &sheet.batches[batch as usize];
        if batch.elements > 0 {
            sides = join(sides, Some(batch.bbox));
        }
    }
    for &text in &cell.texts {
        sides = join(sides, around(&[sheet.texts[text as usize].origin]));
    }
    for &node in &cell.nodes {
        sides = join(sides, around(&sheet.nodes[node as usize].points));
    }
    for &number in &cell.references {
        let reference = &sheet.references[number as usize];
        sides = join(sides, reference.bbox.and_then(|source| reference_box(reference, source)));
    }
    sides
}

/// Grows the boxes that are there until they are true; false if a circle makes them grow for ever.
pub fn grow_true_boxes(sheet: &mut Sheet) -> bool {
    for _ in 0..sheet.cells.len() + sheet.references.len() + 8 {
        let before = sheet.clone();
        for number in 0..sheet.references.len() {
            sheet.references[number].bbox = source_box(sheet, number);
        }
        for number in 0..sheet.cells.len() {
            sheet.cells[number].bbox = cell_box(sheet, number);
        }
        if *sheet == before {
            return true;
        }
    }
    false
}

/// True boxes, breaking circles that grow by taking away their columns.
pub fn true_boxes(sheet: &mut Sheet) {
    let start = sheet.clone();
    if grow_true_boxes(sheet) {
        return;
    }
    let owner: Vec<usize> = owners(&start);
    *sheet = start;
    for (number, reference) in sheet.references.iter_mut().enumerate() {
        if matches!(reference.source, Source::Cell(cell) if cell as usize <= owner[number]) {
            reference.columns = 0;
        }
    }
    if !grow_true_boxes(sheet) {
        for reference in &mut sheet.references {
            reference.rows = 0;
        }
        grow_true_boxes(sheet);
    }
}

/// The greatest cell that lists each reference, through inner references too.
fn owners(sheet: &Sheet) -> Vec<usize> {
    let mut owner = vec![0; sheet.references.len()];
    for (number, cell) in sheet.cells.iter().enumerate() {
        for &reference in &cell.references {
            owner[reference as usize] = number;
        }
    }
    for number in (0..owner.len()).rev() {
        if let Source::Reference(inner) = sheet.references[number].source {
            owner[inner as usize] = owner[inner as usize].max(owner[number]);
        }
    }
    owner
}
