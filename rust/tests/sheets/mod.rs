//! Sheets, by docs/FORMATS.md. Not every test needs every kind.
#![allow(dead_code)]

pub mod random;
pub mod stored;

pub fn record(kind: u16, body: &[u8]) -> Vec<u8> {
    let mut bytes = (body.len() as u32 + 6).to_le_bytes().to_vec();
    bytes.extend(kind.to_le_bytes());
    bytes.extend(body);
    bytes
}

pub fn halves(values: &[u16]) -> Vec<u8> {
    values
        .iter()
        .flat_map(|value| value.to_le_bytes())
        .collect()
}

pub fn floats(values: &[f64]) -> Vec<u8> {
    values
        .iter()
        .flat_map(|value| value.to_le_bytes())
        .collect()
}

pub fn batch(layer: u16, elements: u32, bbox: [f64; 4]) -> Vec<u8> {
    let count = elements.to_le_bytes().to_vec();
    record(1, &[halves(&[layer, 0]), count, floats(&bbox)].concat())
}

pub fn text(layer: u16, origin: [f64; 2], value: &[u8]) -> Vec<u8> {
    record(2, &[&halves(&[layer, 0]), &floats(&origin), value].concat())
}

pub fn node(layer: u16, node_type: u16, points: &[[f64; 2]]) -> Vec<u8> {
    record(
        3,
        &[halves(&[layer, node_type]), floats(&points.concat())].concat(),
    )
}

/// A row of so many members of a cell at an origin, one unit apart, with the cell's box.
pub fn reference(columns: u16, cell: u32, origin: [f64; 2], bbox: [f64; 4]) -> Vec<u8> {
    row(columns, (5, cell), origin, bbox)
}

/// The same of a source by its kind and number.
pub fn row(columns: u16, source: (u16, u32), origin: [f64; 2], bbox: [f64; 4]) -> Vec<u8> {
    let (kind, number) = source;
    let head = [
        halves(&[columns, 1, 2, kind]),
        number.to_le_bytes().to_vec(),
    ]
    .concat();
    let grid = floats(&[origin[0], origin[1], 1.0, 0.0, 0.0, 0.0, 1.0, 1.0, 0.0]);
    record(4, &[head, grid, floats(&bbox)].concat())
}

/// A cell with one direct draw unit: its box, and the numbers of its batches, texts, nodes and references.
pub fn cell(bbox: Option<[f64; 4]>, lists: [&[u32]; 4]) -> Vec<u8> {
    cell_of_units(1, bbox, lists)
}

/// The same with so many direct draw units.
pub fn cell_of_units(units: u64, bbox: Option<[f64; 4]>, lists: [&[u32]; 4]) -> Vec<u8> {
    let mut body = halves(&[u16::from(bbox.is_some())]);
    body.extend(units.to_le_bytes());
    body.extend(floats(&bbox.unwrap_or_default()));
    body.extend(halves(&lists.map(|list| list.len() as u16)));
    body.extend(
        lists
            .concat()
            .iter()
            .flat_map(|number| number.to_le_bytes()),
    );
    record(5, &body)
}

/// "Cell 0 has box 0, 0, 100, 100 and one text at (10, 20), layer 1"
pub fn worked() -> Vec<u8> {
    [
        text(1, [10.0, 20.0], b""),
        cell(Some([0.0, 0.0, 100.0, 100.0]), [&[], &[0], &[], &[]]),
    ]
    .concat()
}

/// A sheet with a batch, a text, a node and a reference to a small cell.
pub fn of_every_kind() -> Vec<u8> {
    let small = [0.0, 0.0, 2.0, 3.0];
    [
        batch(1, 1, [10.0, 10.0, 50.0, 60.0]),
        text(2, [5.0, 6.0], b"VDD"),
        node(3, 9, &[[1.0, 2.0], [200.0, 2.0], [3.0, 4.0]]),
        reference(1, 1, [70.0, 80.0], small),
        cell(Some([0.0, 0.0, 200.0, 100.0]), [&[0], &[0], &[0], &[0]]),
        cell(Some(small), [&[], &[0], &[], &[]]),
    ]
    .concat()
}
