//! Runs of the program `plan`: inputs at the limits of what it lends itself, and reads and writes that go wrong.

/// A query for all of the worked example, with so many hidden layers, none of which the sheet has.
fn query(hidden: usize) -> Vec<u8> {
    query_at(0, 1, hidden)
}

fn query_at(root: u32, depth: u32, hidden: usize) -> Vec<u8> {
    let mut bytes = (54 + 4 * hidden as u32).to_le_bytes().to_vec();
    bytes.extend(20u16.to_le_bytes());
    bytes.extend(root.to_le_bytes());
    bytes.extend(depth.to_le_bytes());
    for float in [0.0f64, 0.0, 100.0, 100.0, 1.0] {
        bytes.extend(float.to_bits().to_le_bytes());
    }
    bytes.extend([0xff; 4].repeat(hidden));
    bytes
}

fn head(length: usize, kind: u16) -> Vec<u8> {
    [&(length as u32).to_le_bytes()[..], &kind.to_le_bytes()].concat()
}

/// A text on layer 1 at (10, 20), its value so many bytes.
fn text(value: usize) -> Vec<u8> {
    let position = [10.0f64, 20.0].map(|float| float.to_bits().to_le_bytes()).concat();
    [head(26 + value, 2), vec![1, 0, 0, 0], position, vec![0; value]].concat()
}

/// So many texts, and a cell without a box that lists the last of them.
fn sheet_of_texts(count: usize) -> Vec<u8> {
    let counts = [0u16, 1, 0, 0].map(u16::to_le_bytes).concat();
    let last = (count as u32 - 1).to_le_bytes();
    [text(0).repeat(count), head(60, 5), vec![0; 42], counts, last.to_vec()].concat()
}

fn sheet() -> Vec<u8> {
    sheet_of_texts(1)
}

/// A reference to a cell, a single one, with a box of 40 by 40.
fn reference(cell: u32) -> Vec<u8> {
    let shorts = [1u16, 1, 2, 5].map(u16::to_le_bytes).concat();
    let floats = [0.0f64, 0.0, 0.0, 0.0, 0.0, 0.0, 1.0, 1.0, 0.0, 0.0, 0.0, 40.0, 40.0].map(|float| float.to_bits().to_le_bytes());
    [head(122, 4), shorts, cell.to_le_bytes().to_vec(), floats.concat()].concat()
}

/// A cell without a box, of so many draw units of its own, that lists some references.
fn cell(units: u64, references: &[u32]) -> Vec<u8> {
    let counts = [0, 0, 0, references.len() as u16].map(u16::to_le_bytes).concat();
    let listed = references.iter().flat_map(|number| number.to_le_bytes()).collect();
    [head(56 + 4 * references.len(), 5), vec![0; 2], units.to_le_bytes().to_vec(), vec![0; 32], counts, listed].concat()
}

/// Cell 1 is counted at depth 2, where it has 200 draw units, by way of cell 2 at depth 1, where it has one, and at depth 2 again.
fn counted_at_two_depths() -> Vec<u8> {
    let references = [0, 1, 1, 2, 1].map(reference).concat();
    [references, cell(200, &[]), cell(0, &[0]), cell(0, &[1]), cell(0, &[2, 3, 4])].concat()
}

/// An input of so many bytes: one text that is listed, and texts that are not.
fn of_length(length: usize) -> Vec<u8> {
    let mut bytes = [query(0), sheet()].concat();
    while bytes.len() < length {
        let left = length - bytes.len();
        bytes.extend(text(if left <= 538 { left - 26 } else { (left - 52).min(512) }));
    }
    bytes
}

const WORKED: &str = "text 0 4024000000000000 4034000000000000\ntotals 1 1 0 0 0 0 0\n";
const INTERRUPTED: i32 = 4;

/// A run: what it shows, the input, how reads and writes go wrong, and the checksum of the text that is printed.
struct Program {
    name: String,
    input: Vec<u8>,
    reads: Faults,
    writes: Faults,
    text: u64,
}

impl Program {
    fn new(name: &str, input: Vec<u8>, text: u64) -> Program {
        Program { name: name.to_string(), input, reads: NO_FAULTS, writes: NO_FAULTS, text }
    }

    fn printed(&self) -> Vec<u8> {
        system::printed(self.input.clone(), self.reads, self.writes, || plan::main(HostRuntime))
    }
}

/// At the limits of the buffers for the input, the finder and the hidden layers. The input's limit is met before the finder's.
fn at_buffers() -> Vec<Program> {
    let layers = |count: usize| [query(count), sheet()].concat();
    let listed = WORKED.replace("text 0", "text 28351");
    let cases = [
        ("an input of 737,280 bytes", of_length(737_280), WORKED),
        ("an input of 737,281 bytes", of_length(737_281), "too long\n"),
        ("28,354 texts and no cell", [query(0), text(0).repeat(28_354)].concat(), "totals 0 0 0 0 0 0 0\n"),
        ("28,352 texts and a cell that lists the last", [query(0), sheet_of_texts(28_352)].concat(), &listed),
        ("16,384 hidden layers", layers(16_384), WORKED),
        ("16,385 hidden layers", layers(16_385), "too long\n"),
    ];
    cases.map(|(name, input, text)| Program::new(name, input, fnv1a(text.as_bytes()))).into()
}

/// A sheet that the stored cases lack. The text is the judge's.
fn of_depths() -> Vec<Program> {
    let proxy = |cell: u32| format!("proxy {cell} {0} {0} {1} {1}\n", "0".repeat(16), "4044000000000000");
    let text = [1, 0, 1].map(proxy).concat() + "totals 3 0 0 0 0 0 0\n";
    let input = [query_at(3, 3, 0), counted_at_two_depths()].concat();
    vec![Program::new("a cell that is counted at two depths", input, fnv1a(text.as_bytes()))]
}

/// Large cases that need all of the scratch, and all of the tape.
fn at_lent(large: &[Large]) -> Vec<Program> {
    let cases = [
        ("large case cells at depth 48, 4096: all of the scratch", "cells at depth 48", 4_096),
        ("large case one short of objects and proxies, 0: all of the tape", "one short of objects and proxies", 0),
    ];
    cases.map(|(shown, name, value)| {
        let case = large.iter().find(|case| case.name == name && case.value == value).unwrap();
        Program::new(shown, case.input(), case.text)
    }).into()
}

/// Reads and writes that fail, are interrupted as often as a call is tried again, or move one byte each.
fn with_faults() -> Vec<Program> {
    let failing = |last: u32, error: i32| Faults { first: 1, last, error, most: usize::MAX };
    let by_bytes = Faults { most: 1, ..NO_FAULTS };
    let cases = [
        ("reads of one byte", by_bytes, NO_FAULTS, WORKED),
        ("a read that fails with error 3", failing(1, INTERRUPTED - 1), NO_FAULTS, "unreadable\n"),
        ("a read that fails with error 5", failing(1, INTERRUPTED + 1), NO_FAULTS, "unreadable\n"),
        ("1,000,000 interrupted reads", failing(1_000_000, INTERRUPTED), NO_FAULTS, WORKED),
        ("1,000,001 interrupted reads", failing(1_000_001, INTERRUPTED), NO_FAULTS, "unreadable\n"),
        ("writes of one byte", NO_FAULTS, by_bytes, WORKED),
        ("a write that fails with error 3", NO_FAULTS, failing(1, INTERRUPTED - 1), ""),
        ("a write that fails with error 5", NO_FAULTS, failing(1, INTERRUPTED + 1), ""),
        ("1,000,000 interrupted writes", NO_FAULTS, failing(1_000_000, INTERRUPTED), WORKED),
        ("1,000,001 interrupted writes", NO_FAULTS, failing(1_000_001, INTERRUPTED), ""),
    ];
    cases.map(|(name, reads, writes, text)| {
        let program = Program::new(name, [query(0), sheet()].concat(), fnv1a(text.as_bytes()));
        Program { reads, writes, ..program }
    }).into()
}

/// Writes what a built program is to be run on: the inputs without faults, and the texts of the unchanged code.
fn write_programs(large: &[Large], folder: &str) {
    for (place, program) in at_buffers().iter().chain(&of_depths()).chain(&at_lent(large)).enumerate() {
        let text = program.printed();
        assert!(fnv1a(&text) == program.text, "{}: the unchanged code does not pass", program.name);
        fs::write(format!("{folder}/{place}.input"), &program.input).unwrap();
        fs::write(format!("{folder}/{place}.name"), &program.name).unwrap();
        fs::write(format!("{folder}/{place}.text"), text).unwrap();
    }
}

fn run_programs(programs: Vec<Program>) -> Option<String> {
    let seen = programs.into_iter().find(|program| sees(|| fnv1a(&program.printed()) == program.text));
    seen.map(|program| program.name)
}
