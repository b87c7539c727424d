//! Sheets of 16,777,216 bytes, the most that a sheet has, for document 02's Paper 4: a wrong length at the first, a middle and the
//! last record, a wrong number in the last one, and a sound sheet whose last records are listed.

use std::collections::BTreeSet;

use super::encode::{batch_bytes, cell_bytes, node_bytes, query_bytes, reference_bytes, single, text_bytes};
use super::large::{Large, wide};
use super::rng::Rng;
use crate::sheet::{Query, Sheet, Source, Text};

const BYTES: usize = 16_777_216;
const MIDDLE: usize = BYTES / 2;
/// Where the shortest record has room, and where only a head has.
const LAST: usize = BYTES - 26;
const LAST_HEAD: usize = BYTES - 6;

/// Lengths that no record of a sheet has.
pub const LENGTHS: [u32; 4] = [u32::MAX, u32::MAX - 1, 1 << 31, BYTES as u32 + 1];

const TEXT: Text = Text { layer: 1, data_type: 0, origin: [10.0, 20.0], value_bytes: 0 };

/// Texts of at most so many bytes up to an end, which is reached already or 26 bytes away at least; how many. The last may be longer.
pub fn fill(bytes: &mut Vec<u8>, end: usize, most: usize) -> u32 {
    let mut texts = 0;
    while bytes.len() < end {
        let left = end - bytes.len();
        // The last record takes what is left; the one before it leaves enough for a record.
        let size = if left <= 538 { left } else { (left - 26).min(most) };
        bytes.extend(text_bytes(&TEXT, &vec![7; size - 26]));
        texts += 1;
    }
    texts
}

/// A record among texts.
fn with_record(at: usize, record: &[u8]) -> Vec<u8> {
    let mut bytes = query_bytes(&wide(1));
    let start = bytes.len();
    fill(&mut bytes, start + at, 500);
    bytes.extend(record);
    fill(&mut bytes, start + BYTES, 500);
    bytes
}

/// A text with another length, as far as the sheet has room for it.
fn with_length(at: usize, length: u64) -> Vec<u8> {
    let mut record = text_bytes(&TEXT, b"");
    record[..4].copy_from_slice(&(length as u32).to_le_bytes());
    record.truncate(BYTES - at);
    with_record(at, &record)
}

/// Lengths for the record at an offset: those above, one that is a byte too long, and one with which the record's end is the sheet's
/// start in 32 bits.
fn lengths(at: usize) -> BTreeSet<u32> {
    let back = (at as u32).wrapping_neg();
    LENGTHS.into_iter().chain([(BYTES - at) as u32 + 1]).chain((at > 0).then_some(back)).collect()
}

/// A cell that lists a batch, of which there is none.
fn wrong_number() -> Vec<u8> {
    let mut sheet = Sheet::default();
    sheet.cell(1, None).batches.push(0);
    let cell = cell_bytes(&sheet.cells[0]);
    with_record(BYTES - cell.len(), &cell)
}

/// Records of every kind, of which all others are listed by the last: a text of that number, and the batch, the node, the five
/// references and the two cells that follow so many such groups.
fn group(before: u32, text: u32) -> Vec<u8> {
    let (x, side) = (f64::from(before), [0.0, 0.0, 40.0, 40.0]);
    let mut sheet = Sheet::default();
    sheet.batch(1, 0, 1, side);
    sheet.text(1, 0, [x, 5.0]);
    sheet.node(1, 0, &[[x, 6.0]]);
    let (reference, cell) = (5 * before, 2 * before);
    for source in [Source::Batch(before), Source::Text(text), Source::Node(before), Source::Cell(cell), Source::Reference(reference)] {
        let mut placed = single(source, Some(side));
        placed.origin = [x, 0.0];
        sheet.reference(placed);
    }
    sheet.cell(1, Some(side)).texts.push(text);
    let root = sheet.cell(1, Some(side));
    (root.batches, root.texts, root.nodes) = (vec![before], vec![text], vec![before]);
    root.references = (reference..reference + 5).collect();
    let items = [batch_bytes(&sheet.batches[0]), text_bytes(&sheet.texts[0], b""), node_bytes(&sheet.nodes[0])];
    let references = sheet.references.iter().map(reference_bytes);
    items.into_iter().chain(references).chain(sheet.cells.iter().map(cell_bytes)).flatten().collect()
}

/// A group at the start and one at the end, whose last cell is the root: every look-up by walking goes through the texts between
/// them, which have at most so many bytes.
pub fn last_listed(most: usize) -> Vec<u8> {
    let mut bytes = query_bytes(&Query { root: 3, ..wide(4) });
    let end = bytes.len() + BYTES;
    bytes.extend(group(0, 0));
    let texts = 1 + fill(&mut bytes, end - group(1, 0).len(), most);
    bytes.extend(group(1, texts));
    bytes
}

/// The seed is the length, or the most bytes of a text.
pub fn large_cases() -> Vec<Large> {
    let places: [(&str, fn(&mut Rng, u64) -> Vec<u8>, BTreeSet<u32>); 4] = [
        ("full sheet, its first length", |_, length| with_length(0, length), lengths(0)),
        ("full sheet, a middle length", |_, length| with_length(MIDDLE, length), lengths(MIDDLE)),
        ("full sheet, its last length", |_, length| with_length(LAST, length), lengths(LAST)),
        ("full sheet, a length in its last 6 bytes", |_, length| with_length(LAST_HEAD, length), BTreeSet::from([u32::MAX])),
    ];
    let lengths = places.into_iter().flat_map(|(name, make, lengths)| {
        lengths.into_iter().map(move |length| Large { name, seed: u64::from(length), make })
    });
    let number = Large { name: "full sheet, a wrong number in its last record", seed: 0, make: |_, _| wrong_number() };
    let sound = Large { name: "full sheet, its last records listed", seed: 26, make: |_, most| last_listed(most as usize) };
    lengths.chain([number, sound]).collect()
}
