//! Sheets and queries as bytes, and short ways to add a record. Written apart from the reader.

use super::rng::Rng;
use crate::sheet::{Batch, Cell, Node, Query, Reference, Sheet, Source, Text};

/// One turn of a quarter: cos and sin.
pub const QUARTERS: [(f64, f64); 4] = [(1.0, 0.0), (0.0, 1.0), (-1.0, 0.0), (0.0, -1.0)];

impl Sheet {
    pub fn batch(&mut self, layer: u16, data_type: u16, elements: u32, bbox: [f64; 4]) -> u32 {
        self.batches.push(Batch { layer, data_type, elements, bbox });
        self.batches.len() as u32 - 1
    }

    pub fn text(&mut self, layer: u16, data_type: u16, origin: [f64; 2]) -> u32 {
        self.texts.push(Text { layer, data_type, origin, value_bytes: 0 });
        self.texts.len() as u32 - 1
    }

    pub fn node(&mut self, layer: u16, node_type: u16, points: &[[f64; 2]]) -> u32 {
        self.nodes.push(Node { layer, node_type, points: points.to_vec() });
        self.nodes.len() as u32 - 1
    }

    pub fn reference(&mut self, reference: Reference) -> u32 {
        self.references.push(reference);
        self.references.len() as u32 - 1
    }

    pub fn cell(&mut self, units: u64, bbox: Option<[f64; 4]>) -> &mut Cell {
        self.cells.push(Cell {
            units,
            bbox,
            batches: Vec::new(),
            texts: Vec::new(),
            nodes: Vec::new(),
            references: Vec::new(),
        });
        self.cells.last_mut().unwrap()
    }
}

/// A single, unturned reference at (0, 0).
pub fn single(source: Source, bbox: Option<[f64; 4]>) -> Reference {
    grid(source, bbox, (1, 1), [0.0, 0.0])
}

/// An unturned grid from (0, 0), spaced along the axes.
pub fn grid(
    source: Source,
    bbox: Option<[f64; 4]>,
    (columns, rows): (u16, u16),
    spacing: [f64; 2],
) -> Reference {
    Reference {
        columns,
        rows,
        reflection: false,
        source,
        origin: [0.0, 0.0],
        spacing_x: [spacing[0], 0.0],
        spacing_y: [0.0, spacing[1]],
        magnification: 1.0,
        cos: 1.0,
        sin: 0.0,
        bbox,
    }
}

struct Writer(Vec<u8>);

impl Writer {
    fn record(kind: u16) -> Self {
        let mut bytes = vec![0; 4];
        bytes.extend(kind.to_le_bytes());
        Self(bytes)
    }

    fn two(mut self, value: u16) -> Self {
        self.0.extend(value.to_le_bytes());
        self
    }

    fn four(mut self, value: u32) -> Self {
        self.0.extend(value.to_le_bytes());
        self
    }

    fn eight(mut self, value: u64) -> Self {
        self.0.extend(value.to_le_bytes());
        self
    }

    fn floats(mut self, values: &[f64]) -> Self {
        for value in values {
            self.0.extend(value.to_le_bytes());
        }
        self
    }

    fn bytes(mut self, values: &[u8]) -> Self {
        self.0.extend(values);
        self
    }

    fn end(mut self) -> Vec<u8> {
        let length = (self.0.len() as u32).to_le_bytes();
        self.0[..4].copy_from_slice(&length);
        self.0
    }
}

pub fn query_bytes(query: &Query) -> Vec<u8> {
    let head = Writer::record(20).four(query.root).four(query.depth);
    let head = head.floats(&query.view).floats(&[query.zoom]);
    query.hidden.iter().fold(head, |writer, &key| writer.four(key)).end()
}

pub fn batch_bytes(batch: &Batch) -> Vec<u8> {
    let head = Writer::record(1).two(batch.layer).two(batch.data_type);
    head.four(batch.elements).floats(&batch.bbox).end()
}

pub fn text_bytes(text: &Text, value: &[u8]) -> Vec<u8> {
    let head = Writer::record(2).two(text.layer).two(text.data_type);
    head.floats(&text.origin).bytes(value).end()
}

pub fn node_bytes(node: &Node) -> Vec<u8> {
    let head = Writer::record(3).two(node.layer).two(node.node_type);
    node.points.iter().fold(head, |writer, point| writer.floats(point)).end()
}

pub fn reference_bytes(reference: &Reference) -> Vec<u8> {
    let (kind, number) = match reference.source {
        Source::Batch(number) => (1, number),
        Source::Text(number) => (2, number),
        Source::Node(number) => (3, number),
        Source::Reference(number) => (4, number),
        Source::Cell(number) => (5, number),
    };
    let flags = u16::from(reference.reflection) | if reference.bbox.is_some() { 2 } else { 0 };
    Writer::record(4)
        .two(reference.columns)
        .two(reference.rows)
        .two(flags)
        .two(kind)
        .four(number)
        .floats(&reference.origin)
        .floats(&reference.spacing_x)
        .floats(&reference.spacing_y)
        .floats(&[reference.magnification, reference.cos, reference.sin])
        .floats(&reference.bbox.unwrap_or([0.0; 4]))
        .end()
}

pub fn cell_bytes(cell: &Cell) -> Vec<u8> {
    let lists = [&cell.batches, &cell.texts, &cell.nodes, &cell.references];
    let head = Writer::record(5).two(u16::from(cell.bbox.is_some())).eight(cell.units);
    let head = head.floats(&cell.bbox.unwrap_or([0.0; 4]));
    let head = lists.iter().fold(head, |writer, list| writer.two(list.len() as u16));
    lists.iter().flat_map(|list| list.iter()).fold(head, |writer, &number| writer.four(number)).end()
}

fn value(rng: &mut Rng, length: usize) -> Vec<u8> {
    (0..length).map(|_| rng.next() as u8).collect()
}

/// A text's value as most families have it.
fn short_value(rng: &mut Rng) -> Vec<u8> {
    let length = if rng.chance(1, 8) { rng.size(0, 40) } else { rng.size(0, 4) };
    value(rng, length)
}

/// A text's value of up to 512 bytes.
pub fn long_value(rng: &mut Rng) -> Vec<u8> {
    let length = if rng.chance(1, 3) { 512 } else { rng.size(0, 512) };
    value(rng, length)
}

/// The records of a sheet in a random order that keeps each kind's own.
pub fn records(sheet: &Sheet, rng: &mut Rng) -> Vec<Vec<u8>> {
    records_with(sheet, short_value, rng)
}

fn records_with(sheet: &Sheet, value: fn(&mut Rng) -> Vec<u8>, rng: &mut Rng) -> Vec<Vec<u8>> {
    let mut kinds: [std::collections::VecDeque<Vec<u8>>; 5] = [
        sheet.batches.iter().map(batch_bytes).collect(),
        sheet.texts.iter().map(|text| text_bytes(text, &value(rng))).collect(),
        sheet.nodes.iter().map(node_bytes).collect(),
        sheet.references.iter().map(reference_bytes).collect(),
        sheet.cells.iter().map(cell_bytes).collect(),
    ];
    let mixed = rng.chance(1, 2);
    let mut records = Vec::new();
    loop {
        let left: Vec<usize> = (0..5).filter(|&kind| !kinds[kind].is_empty()).collect();
        let Some(&first) = left.first() else { return records };
        let kind = if mixed { rng.pick(&left) } else { first };
        records.push(kinds[kind].pop_front().unwrap());
    }
}

pub fn input(query: &Query, sheet: &Sheet, rng: &mut Rng) -> Vec<u8> {
    input_with(query, sheet, short_value, rng)
}

pub fn input_with(query: &Query, sheet: &Sheet, value: fn(&mut Rng) -> Vec<u8>, rng: &mut Rng) -> Vec<u8> {
    let mut bytes = query_bytes(query);
    bytes.extend(records_with(sheet, value, rng).concat());
    bytes
}
