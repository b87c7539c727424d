// Questions 1 to 7: the sheet as bytes, read record by record, then as a whole.
// States document 01's "The sheet a reader opens" and "Before a plan"; rests on no Rattle code.

use crate::answer::Refusal;
use crate::sheet::{Batch, Cell, Node, Reference, Sheet, Source, Text};

const MAX_SHEET_BYTES: usize = 16_777_216;
const MAX_CELLS: usize = 4_096;
const MAX_COLUMNS_OR_ROWS: u16 = 32_767;
const MAX_TEXT_BYTES: usize = 512;
const MAX_NODE_POINTS: usize = 50;
const HEAD: usize = 6;

fn u16_at(bytes: &[u8], at: usize) -> u16 {
    u16::from_le_bytes(bytes[at..at + 2].try_into().unwrap())
}

fn u32_at(bytes: &[u8], at: usize) -> u32 {
    u32::from_le_bytes(bytes[at..at + 4].try_into().unwrap())
}

fn u64_at(bytes: &[u8], at: usize) -> u64 {
    u64::from_le_bytes(bytes[at..at + 8].try_into().unwrap())
}

fn floats<const N: usize>(bytes: &[u8], at: usize) -> [f64; N] {
    std::array::from_fn(|i| f64::from_bits(u64_at(bytes, at + 8 * i)))
}

fn finite(values: &[f64]) -> bool {
    values.iter().all(|value| value.is_finite())
}

/// Reads and checks a sheet: questions 1 to 7 in order.
pub fn open(bytes: &[u8]) -> Result<Sheet, Refusal> {
    if bytes.len() > MAX_SHEET_BYTES {
        return Err(Refusal { number: 1, offset: 0 });
    }
    let mut sheet = Sheet::default();
    // The offsets of references and cells in record order, for question 7.
    let mut naming = Vec::new();
    let mut offset = 0;
    while offset < bytes.len() {
        let refuse = |number| Refusal { number, offset: offset as u32 };
        let record = whole_record(&bytes[offset..]).ok_or_else(|| refuse(2))?;
        let kind = u16_at(record, 4);
        if !length_is_right(kind, record) {
            return Err(refuse(3));
        }
        if !fields_are_right(kind, record) {
            return Err(refuse(4));
        }
        if !floats_are_finite(kind, record) {
            return Err(refuse(5));
        }
        if kind >= 4 {
            naming.push((kind, offset as u32));
        }
        add_record(&mut sheet, kind, record);
        offset += record.len();
    }
    if sheet.cells.len() > MAX_CELLS {
        return Err(Refusal { number: 7, offset: 0 });
    }
    match first_bad_number(&sheet, &naming) {
        Some(offset) => Err(Refusal { number: 6, offset }),
        None => Ok(sheet),
    }
}

/// Question 2: "Are 6 bytes left, and is the length at least 6 and within the sheet?"
fn whole_record(rest: &[u8]) -> Option<&[u8]> {
    if rest.len() < HEAD {
        return None;
    }
    let length = u32_at(rest, 0) as usize;
    if length < HEAD || length > rest.len() { None } else { Some(&rest[..length]) }
}

/// Question 3: "Is the kind 1 to 5 and the length right for it, a cell's counts included?"
fn length_is_right(kind: u16, record: &[u8]) -> bool {
    let length = record.len();
    match kind {
        1 => length == 46,
        2 => (26..=26 + MAX_TEXT_BYTES).contains(&length),
        3 => length > 10 && (length - 10) % 16 == 0 && (length - 10) / 16 <= MAX_NODE_POINTS,
        4 => length == 122,
        5 => length >= 56 && length == 56 + 4 * counts(record).iter().sum::<usize>(),
        _ => false,
    }
}

fn counts(record: &[u8]) -> [usize; 4] {
    std::array::from_fn(|i| usize::from(u16_at(record, 48 + 2 * i)))
}

/// Question 4: columns and rows, spare bits, absent boxes, source kind, cell source.
fn fields_are_right(kind: u16, record: &[u8]) -> bool {
    match kind {
        4 => {
            let flags = u16_at(record, 10);
            let source_kind = u16_at(record, 12);
            u16_at(record, 6) <= MAX_COLUMNS_OR_ROWS
                && u16_at(record, 8) <= MAX_COLUMNS_OR_ROWS
                && flags & !3 == 0
                && (flags & 2 != 0 || all_zero(&record[90..122]))
                && (1..=5).contains(&source_kind)
                && !(source_kind == 5 && u32_at(record, 14) == u32::MAX)
        }
        5 => {
            let flags = u16_at(record, 6);
            flags & !1 == 0 && (flags & 1 != 0 || all_zero(&record[16..48]))
        }
        _ => true,
    }
}

fn all_zero(bytes: &[u8]) -> bool {
    bytes.iter().all(|&byte| byte == 0)
}

/// Question 5: "Is every float finite?"
fn floats_are_finite(kind: u16, record: &[u8]) -> bool {
    match kind {
        1 => finite(&floats::<4>(record, 14)),
        2 => finite(&floats::<2>(record, 10)),
        3 => (10..record.len()).step_by(16).all(|at| finite(&floats::<2>(record, at))),
        4 => finite(&floats::<13>(record, 18)),
        _ => finite(&floats::<4>(record, 16)),
    }
}

fn add_record(sheet: &mut Sheet, kind: u16, record: &[u8]) {
    let (layer, data_type) = (u16_at(record, 6), u16_at(record, 8));
    match kind {
        1 => sheet.batches.push(Batch {
            layer,
            data_type,
            elements: u32_at(record, 10),
            bbox: floats(record, 14),
        }),
        2 => sheet.texts.push(Text {
            layer,
            data_type,
            origin: floats(record, 10),
            value_bytes: record.len() - 26,
        }),
        3 => sheet.nodes.push(Node {
            layer,
            node_type: data_type,
            points: (10..record.len()).step_by(16).map(|at| floats(record, at)).collect(),
        }),
        4 => sheet.references.push(reference(record)),
        _ => sheet.cells.push(cell(record)),
    }
}

fn reference(record: &[u8]) -> Reference {
    let flags = u16_at(record, 10);
    let number = u32_at(record, 14);
    let [magnification, cos, sin] = floats(record, 66);
    Reference {
        columns: u16_at(record, 6),
        rows: u16_at(record, 8),
        reflection: flags & 1 != 0,
        source: match u16_at(record, 12) {
            1 => Source::Batch(number),
            2 => Source::Text(number),
            3 => Source::Node(number),
            4 => Source::Reference(number),
            _ => Source::Cell(number),
        },
        origin: floats(record, 18),
        spacing_x: floats(record, 34),
        spacing_y: floats(record, 50),
        magnification,
        cos,
        sin,
        bbox: (flags & 2 != 0).then(|| floats(record, 90)),
    }
}

fn cell(record: &[u8]) -> Cell {
    let mut at = 56;
    let mut numbers = counts(record).map(|count| {
        let list: Vec<u32> = (0..count).map(|i| u32_at(record, at + 4 * i)).collect();
        at += 4 * count;
        list
    });
    let [batches, texts, nodes, references] = numbers.each_mut().map(std::mem::take);
    Cell {
        units: u64_at(record, 8),
        bbox: (u16_at(record, 6) & 1 != 0).then(|| floats(record, 16)),
        batches,
        texts,
        nodes,
        references,
    }
}

/// Question 7: "Does every number in a cell, and every source but a cell source, name an existing record,
/// and a reference source an earlier one?"
fn first_bad_number(sheet: &Sheet, naming: &[(u16, u32)]) -> Option<u32> {
    let (mut next_reference, mut next_cell) = (0, 0);
    for &(kind, offset) in naming {
        let good = if kind == 4 {
            next_reference += 1;
            source_exists(sheet, next_reference - 1)
        } else {
            next_cell += 1;
            numbers_exist(sheet, &sheet.cells[next_cell - 1])
        };
        if !good {
            return Some(offset);
        }
    }
    None
}

fn source_exists(sheet: &Sheet, own: usize) -> bool {
    match sheet.references[own].source {
        Source::Batch(number) => (number as usize) < sheet.batches.len(),
        Source::Text(number) => (number as usize) < sheet.texts.len(),
        Source::Node(number) => (number as usize) < sheet.nodes.len(),
        Source::Reference(number) => (number as usize) < own,
        Source::Cell(_) => true,
    }
}

fn numbers_exist(sheet: &Sheet, cell: &Cell) -> bool {
    let below = |list: &[u32], count: usize| list.iter().all(|&number| (number as usize) < count);
    below(&cell.batches, sheet.batches.len())
        && below(&cell.texts, sheet.texts.len())
        && below(&cell.nodes, sheet.nodes.len())
        && below(&cell.references, sheet.references.len())
}
