//! Faults made by hand: each question of document 01 at its edge, and the order in which they are asked.

use std::collections::BTreeSet;

use super::edges::worked_sheet;
use super::encode::{batch_bytes, cell_bytes, node_bytes, query_bytes, reference_bytes, single, text_bytes};
use super::full;
use crate::sheet::{Batch, Cell, Node, Query, Source, Text};

pub struct Fault {
    pub label: String,
    pub input: Vec<u8>,
}

type Faults = Vec<Fault>;

fn query() -> Query {
    Query { root: 0, depth: 2, view: [0.0, 0.0, 100.0, 100.0], zoom: 1.0, hidden: Vec::new() }
}

fn add(faults: &mut Faults, label: impl Into<String>, records: &[Vec<u8>]) {
    let input = [query_bytes(&query()), records.concat()].concat();
    faults.push(Fault { label: label.into(), input });
}

fn batch() -> Vec<u8> {
    batch_bytes(&Batch { layer: 1, data_type: 2, elements: 3, bbox: [0.0, 0.0, 50.0, 50.0] })
}

fn text(value: usize) -> Vec<u8> {
    text_bytes(&Text { layer: 1, data_type: 2, origin: [5.0, 6.0], value_bytes: 0 }, &vec![b'a'; value])
}

fn node(points: usize) -> Vec<u8> {
    node_bytes(&Node { layer: 1, node_type: 2, points: vec![[7.0, 8.0]; points] })
}

fn reference() -> Vec<u8> {
    reference_bytes(&single(Source::Cell(0), Some([0.0, 0.0, 30.0, 30.0])))
}

fn boxless() -> Vec<u8> {
    reference_bytes(&single(Source::Cell(0), None))
}

fn cell(lists: [&[u32]; 4]) -> Vec<u8> {
    let [batches, texts, nodes, references] = lists.map(<[u32]>::to_vec);
    cell_bytes(&Cell { units: 1, bbox: Some([0.0, 0.0, 100.0, 100.0]), batches, texts, nodes, references })
}

/// A record with some bytes changed.
fn with(mut record: Vec<u8>, at: usize, bytes: &[u8]) -> Vec<u8> {
    record[at..at + bytes.len()].copy_from_slice(bytes);
    record
}

/// A record of another size, its length field in step.
fn sized(mut record: Vec<u8>, size: usize) -> Vec<u8> {
    record.resize(size, 0);
    with(record, 0, &(size as u32).to_le_bytes())
}

pub fn all() -> Faults {
    let mut faults = Vec::new();
    lengths(&mut faults);
    sizes(&mut faults);
    fields(&mut faults);
    floats(&mut faults);
    numbers(&mut faults);
    orders(&mut faults);
    queries(&mut faults);
    no_queries(&mut faults);
    deeper_queries(&mut faults);
    wide_lengths(&mut faults);
    faults
}

/// Where a record stands among texts: how many are before it and behind it.
#[derive(Clone, Copy, PartialEq)]
struct Place {
    name: &'static str,
    before: usize,
    behind: usize,
}

const FIRST: Place = Place { name: "first", before: 0, behind: 1 };
const MIDDLE: Place = Place { name: "middle", before: 1, behind: 1 };
const LAST: Place = Place { name: "last", before: 1, behind: 0 };

/// The lengths of a first and of a last record.
const LENGTHS: [u32; 12] = [0, 1, 5, 6, 7, 45, 46, 47, 1000, 0x7fff_ffff, 0x8000_0000, u32::MAX];

/// A batch with another length.
fn wrong_length(faults: &mut Faults, Place { name, before, behind }: Place, length: u32) {
    let record = with(batch(), 0, &length.to_le_bytes());
    let records = [vec![text(0); before], vec![record], vec![text(0); behind]].concat();
    add(faults, format!("{name} length {length}"), &records);
}

fn lengths(faults: &mut Faults) {
    for length in LENGTHS {
        wrong_length(faults, FIRST, length);
        wrong_length(faults, LAST, length);
    }
    for tail in 1..=6 {
        add(faults, format!("{tail} zero bytes at the end"), &[text(0), vec![0; tail]]);
        add(faults, format!("{tail} bytes of a record at the end"), &[text(0), text(0)[..tail].to_vec()]);
    }
    add(faults, "last record cut by one byte", &[text(3), batch()[..45].to_vec()]);
}

/// Document 02's Paper 4: lengths that no record of a sheet has, and those with which the record's end, counted in so many bits, is
/// the sheet's start, the record itself, the next one, the sheet's end, or a byte past it.
fn wide_lengths(faults: &mut Faults) {
    for place in [FIRST, MIDDLE, LAST] {
        let at = (place.before * text(0).len()) as u64;
        let next = at + batch().len() as u64;
        let end = next + (place.behind * text(0).len()) as u64;
        let mut wide = BTreeSet::from(full::LENGTHS);
        for bits in [16, 24, 31, 32] {
            wide.extend([0, at, next, end, end + 1].into_iter().flat_map(|to| u32::try_from((1u64 << bits) + to - at)));
        }
        if place != MIDDLE {
            wide.retain(|length| !LENGTHS.contains(length));
        }
        wide.into_iter().for_each(|length| wrong_length(faults, place, length));
    }
}

fn sizes(faults: &mut Faults) {
    for value in [0, 1, 511, 512, 513, 514] {
        add(faults, format!("text of {value} bytes"), &[text(value), cell([&[], &[0], &[], &[]])]);
    }
    for points in [1, 2, 49, 50, 51] {
        add(faults, format!("node of {points} points"), &[node(points), cell([&[], &[], &[0], &[]])]);
    }
    add(faults, "node without points", &[sized(node(1), 10)]);
    for size in [25, 27, 41] {
        add(faults, format!("node of {size} bytes"), &[sized(node(2), size)]);
    }
    add(faults, "text of 25 bytes", &[sized(text(0), 25)]);
    for size in [6, 45, 47] {
        add(faults, format!("batch of {size} bytes"), &[sized(batch(), size)]);
    }
    for size in [121, 123] {
        add(faults, format!("reference of {size} bytes"), &[sized(reference(), size)]);
    }
    for size in [6, 55, 56, 57, 59, 60, 61, 64] {
        let one = with(cell([&[], &[0], &[], &[]]), 0, &60u32.to_le_bytes());
        add(faults, format!("cell of one text in {size} bytes"), &[text(0), sized(one, size)]);
    }
    for place in 0..4 {
        let record = with(cell([&[], &[], &[], &[]]), 48 + 2 * place, &u16::MAX.to_le_bytes());
        add(faults, format!("cell that counts 65,535 at place {place}"), &[record]);
    }
    for kind in [0u16, 6, 10, 11, 15, 20, 256, 0xff01, u16::MAX] {
        add(faults, format!("kind {kind}"), &[text(0), with(batch(), 4, &kind.to_le_bytes())]);
    }
    for kind in 1u16..=5 {
        add(faults, format!("46 bytes of kind {kind}"), &[with(batch(), 4, &kind.to_le_bytes())]);
    }
}

fn fields(faults: &mut Faults) {
    let listed = || cell([&[], &[], &[], &[0]]);
    for count in [0u16, 32_767, 32_768, 65_535] {
        for (at, name) in [(6, "columns"), (8, "rows")] {
            let record = with(reference(), at, &count.to_le_bytes());
            add(faults, format!("{count} {name}"), &[record, listed()]);
        }
    }
    for bit in 0..16 {
        let flags = 2 | 1u16 << bit;
        add(faults, format!("reference flag {bit}"), &[with(reference(), 10, &flags.to_le_bytes()), listed()]);
        let flags = 1 | 1u16 << bit;
        add(faults, format!("cell flag {bit}"), &[with(cell([&[]; 4]), 6, &flags.to_le_bytes())]);
    }
    for at in [0, 7, 15, 24, 31] {
        add(faults, format!("absent source box with byte {at}"), &[with(boxless(), 90 + at, &[1])]);
        let bare = with(sized(cell([&[]; 4]), 56), 6, &[0, 0]);
        let bare = with(bare, 16, &[0; 32]);
        add(faults, format!("absent cell box with byte {at}"), &[with(bare.clone(), 16 + at, &[0x80])]);
        add(faults, format!("absent cell box, {at}"), &[bare]);
    }
    add(faults, "absent source box", &[boxless(), listed()]);
    for kind in [0u16, 6, 7, 256, u16::MAX] {
        add(faults, format!("source kind {kind}"), &[with(reference(), 12, &kind.to_le_bytes())]);
    }
    for number in [u32::MAX, u32::MAX - 1, 1] {
        let record = with(reference(), 14, &number.to_le_bytes());
        add(faults, format!("cell source {number}"), &[record, listed()]);
    }
}

fn floats(faults: &mut Faults) {
    let spans: [(&str, Vec<u8>, usize, usize); 5] = [
        ("batch", batch(), 14, 46),
        ("text", text(0), 10, 26),
        ("node", node(2), 10, 42),
        ("reference", reference(), 18, 122),
        ("cell", cell([&[]; 4]), 16, 48),
    ];
    for (name, record, start, end) in spans {
        for (turn, at) in (start..end).step_by(8).enumerate() {
            let value = [f64::NAN, f64::INFINITY, f64::NEG_INFINITY][turn % 3];
            let label = format!("{name} with {value} at byte {at}");
            add(faults, label, &[text(1), with(record.clone(), at, &value.to_le_bytes())]);
        }
    }
    let signalling = f64::from_bits(0x7ff0_0000_0000_0001);
    add(faults, "batch with a signalling NaN", &[with(batch(), 14, &signalling.to_le_bytes())]);
    add(faults, "batch with the greatest float", &[with(batch(), 30, &f64::MAX.to_le_bytes())]);
}

fn source(kind: u16, number: u32) -> Vec<u8> {
    with(with(reference(), 12, &kind.to_le_bytes()), 14, &number.to_le_bytes())
}

fn numbers(faults: &mut Faults) {
    for (kind, records) in [(1u16, [batch(), batch()]), (2, [text(0), text(1)]), (3, [node(1), node(2)])] {
        for number in [0, 1, 2, 65_536, u32::MAX] {
            let label = format!("source kind {kind} number {number} of 2");
            let [first, second] = records.clone();
            add(faults, label, &[source(kind, number), first, second, cell([&[], &[], &[], &[0]])]);
        }
    }
    for number in [0, 1, 2, 3, u32::MAX] {
        let records = [reference(), source(4, number), reference(), cell([&[], &[], &[], &[1]])];
        add(faults, format!("reference 1 of 3 holds reference {number}"), &records);
    }
    add(faults, "reference 0 holds reference 0", &[source(4, 0)]);
    for place in 0..4 {
        for number in [0, 1, u32::MAX] {
            let mut lists: [&[u32]; 4] = [&[0], &[0], &[0], &[0]];
            let own = [0, number];
            lists[place] = &own;
            let records = [cell(lists), batch(), text(0), node(1), source(5, 9)];
            add(faults, format!("cell with number {number} of 1 at list {place}"), &records);
        }
    }
}

/// Two faults: which comes first, and where.
fn orders(faults: &mut Faults) {
    let nan = f64::NAN.to_le_bytes();
    let short = || with(batch(), 0, &5u32.to_le_bytes());
    let kind = || with(batch(), 4, &9u16.to_le_bytes());
    let field = || with(reference(), 10, &4u16.to_le_bytes());
    let float = || with(batch(), 14, &nan);
    let number = || source(1, 99);
    let listed = || cell([&[99], &[], &[], &[]]);
    let named: [(&str, &dyn Fn() -> Vec<u8>); 6] = [
        ("length", &short), ("kind", &kind), ("field", &field), ("float", &float), ("source", &number), ("list", &listed),
    ];
    for (first, one) in &named {
        for (second, other) in &named {
            if first != second {
                add(faults, format!("{first} before {second}"), &[text(0), one(), other()]);
            }
        }
    }
    add(faults, "field and float in one record", &[with(field(), 18, &nan)]);
    add(faults, "source kind and float in one record", &[with(source(0, 0), 18, &nan)]);
    add(faults, "source of FFFFFFFF and float in one record", &[with(source(5, u32::MAX), 18, &nan)]);
    add(faults, "length and float in one record", &[sized(with(batch(), 14, &nan), 47)]);
    add(faults, "kind and length out of the sheet", &[with(kind(), 0, &99u32.to_le_bytes())]);
    add(faults, "cell flag and float in one record", &[with(with(cell([&[]; 4]), 6, &[3, 0]), 16, &nan)]);
    add(faults, "absent box that is no number", &[with(boxless(), 90, &nan)]);
}

/// A query on a sound sheet, and on one with a bad number.
fn ask(faults: &mut Faults, label: String, query: Query) {
    let sheet = [text(0), cell([&[], &[0], &[], &[]])].concat();
    let broken = [text(0), source(1, 99)].concat();
    for (name, sheet) in [("", sheet), (", sheet with a bad number", broken)] {
        let input = [query_bytes(&query), sheet].concat();
        faults.push(Fault { label: format!("{label}{name}"), input });
    }
}

fn queries(faults: &mut Faults) {
    let mut ask = |label: String, query: Query| ask(faults, label, query);
    let views = [
        [f64::NAN, 0.0, 1.0, 1.0], [0.0, f64::NAN, 1.0, 1.0], [0.0, 0.0, f64::NAN, 1.0], [0.0, 0.0, 1.0, f64::NAN],
        [f64::NEG_INFINITY, 0.0, 1.0, 1.0], [0.0, 0.0, f64::INFINITY, 1.0], [2.0, 0.0, 1.0, 1.0], [0.0, 2.0, 1.0, 1.0],
        [1.0, 1.0, 1.0, 1.0], [-0.0, 0.0, 0.0, -0.0], [0.0, 0.0, -0.0, 0.0], [f64::MIN, f64::MIN, f64::MAX, f64::MAX],
    ];
    for view in views {
        ask(format!("view {view:?}"), Query { view, ..query() });
    }
    for zoom in [0.0, -0.0, -1.0, f64::NAN, f64::INFINITY, f64::NEG_INFINITY, f64::from_bits(1), f64::MAX] {
        ask(format!("zoom {zoom:e}"), Query { zoom, ..query() });
    }
    for depth in [0, 31, 32, 33, 48, 49, 1 << 31, u32::MAX] {
        ask(format!("depth {depth}"), Query { depth, ..query() });
    }
    let bad_view = [2.0, 0.0, 1.0, 1.0];
    ask("view and zoom".into(), Query { view: bad_view, zoom: 0.0, ..query() });
    ask("view and depth".into(), Query { view: bad_view, depth: 33, ..query() });
    ask("zoom and depth".into(), Query { zoom: 0.0, depth: 33, ..query() });
}

/// Depths around 48, and the order of questions 8 to 10 where the depth is too great.
fn deeper_queries(faults: &mut Faults) {
    for depth in [34, 47, 50] {
        ask(faults, format!("depth {depth}"), Query { depth, ..query() });
    }
    let bad_view = [2.0, 0.0, 1.0, 1.0];
    ask(faults, "view and depth 49".into(), Query { view: bad_view, depth: 49, ..query() });
    ask(faults, "zoom and depth 49".into(), Query { zoom: 0.0, depth: 49, ..query() });
}

fn no_queries(faults: &mut Faults) {
    let sheet = [text(0), cell([&[], &[0], &[], &[]])].concat();
    let whole = [query_bytes(&Query { hidden: vec![1, 2], ..query() }), sheet].concat();
    for length in [0, 1, 5, 6, 53, 54, 57, 58, 59, 61, 62] {
        faults.push(Fault { label: format!("input of {length} bytes"), input: whole[..length].to_vec() });
    }
    for length in [0, 6, 53, 54, 55, 56, 57, 58, 59, 62, 66, 148, 149, 150, 152, 1000, u32::MAX] {
        let input = with(whole.clone(), 0, &length.to_le_bytes());
        faults.push(Fault { label: format!("query of length {length}"), input });
    }
    for kind in [0u16, 1, 5, 19, 21, 0x1400, 0x0114, u16::MAX] {
        let input = with(whole.clone(), 4, &kind.to_le_bytes());
        faults.push(Fault { label: format!("query of kind {kind}"), input });
    }
    let worked = worked_sheet();
    let records = [text_bytes(&worked.texts[0], b"ABC"), cell_bytes(&worked.cells[0])].concat();
    faults.push(Fault { label: "sheet alone".into(), input: records });
    faults.push(Fault { label: "query alone".into(), input: query_bytes(&query()) });
    for length in [53, 54] {
        let input = query_bytes(&query())[..length].to_vec();
        let input = with(input, 0, &(length as u32).to_le_bytes());
        faults.push(Fault { label: format!("query alone, {length} bytes"), input });
    }
}
