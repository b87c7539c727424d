// The tape: records 11 to 15 as bytes, and their lines as `plan` prints them.
// States document 01's "Shapes, texts, points and proxies: the tape" and the print of the program `plan`, with the seventh count
// of document 02's Paper 8.

use std::fmt::Write as _;

use crate::events::{Event, Run, pattern};

/// "an absent label": FFFFFFFF (hexadecimal).
const NO_LABEL: u32 = u32::MAX;

fn head(tape: &mut Vec<u8>, length: u32, kind: u16) {
    tape.extend(length.to_le_bytes());
    tape.extend(kind.to_le_bytes());
}

fn floats(tape: &mut Vec<u8>, values: &[f64]) {
    for &value in values {
        tape.extend(pattern(value).to_le_bytes());
    }
}

/// The whole tape of a run, in the order of emission, totals last.
pub fn write(run: &Run) -> Vec<u8> {
    let mut tape = Vec::new();
    for event in &run.record.events {
        match event {
            Event::Batch { number, placement } => {
                head(&mut tape, 58, 11);
                tape.extend(number.to_le_bytes());
                floats(&mut tape, placement);
            }
            Event::Text { number, position } => {
                head(&mut tape, 26, 12);
                tape.extend(number.to_le_bytes());
                floats(&mut tape, position);
            }
            Event::Point { layer, node_type, position, .. } => {
                head(&mut tape, 26, 13);
                tape.extend(layer.to_le_bytes());
                tape.extend(node_type.to_le_bytes());
                floats(&mut tape, position);
            }
            Event::Proxy { label, bbox, .. } => {
                head(&mut tape, 42, 14);
                tape.extend(label.unwrap_or(NO_LABEL).to_le_bytes());
                floats(&mut tape, bbox);
            }
            _ => {}
        }
    }
    head(&mut tape, 62, 15);
    for total in run.lists.totals.into_iter().chain([run.record.dropped]) {
        tape.extend(total.to_le_bytes());
    }
    tape
}

/// The lines of a tape.
pub fn print(tape: &[u8]) -> Vec<u8> {
    let u16_at = |at: usize| u16::from_le_bytes(tape[at..at + 2].try_into().unwrap());
    let u32_at = |at: usize| u32::from_le_bytes(tape[at..at + 4].try_into().unwrap());
    let u64_at = |at: usize| u64::from_le_bytes(tape[at..at + 8].try_into().unwrap());
    let mut text = String::new();
    let mut at = 0;
    while at < tape.len() {
        let (length, kind) = (u32_at(at) as usize, u16_at(at + 4));
        match kind {
            11 => write!(text, "batch {}", u32_at(at + 6)),
            12 => write!(text, "text {}", u32_at(at + 6)),
            13 => write!(text, "point {} {}", u16_at(at + 6), u16_at(at + 8)),
            14 if u32_at(at + 6) == NO_LABEL => write!(text, "proxy none"),
            14 => write!(text, "proxy {}", u32_at(at + 6)),
            _ => write!(text, "totals"),
        }
        .unwrap();
        let values = if kind == 15 { at + 6 } else { at + 10 };
        for place in (values..at + length).step_by(8) {
            if kind == 15 {
                write!(text, " {}", u64_at(place)).unwrap();
            } else {
                write!(text, " {:016x}", u64_at(place)).unwrap();
            }
        }
        text.push('\n');
        at += length;
    }
    text.into_bytes()
}
