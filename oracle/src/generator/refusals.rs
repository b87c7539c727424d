//! Faulty sheets and queries: every refusal number that `plan` can print, by one or two mutations of a sound input.

use super::encode::{query_bytes, records};
use super::families::square;
use super::rng::Rng;
use crate::sheet::Query;

const NOT_FINITE: [f64; 4] = [f64::NAN, f64::INFINITY, f64::NEG_INFINITY, -f64::NAN];

fn put(record: &mut [u8], at: usize, bytes: &[u8]) {
    if at + bytes.len() <= record.len() {
        record[at..at + bytes.len()].copy_from_slice(bytes);
    }
}

fn kind_of(record: &[u8]) -> u16 {
    u16::from_le_bytes([record[4], record[5]])
}

/// Where the floats of a record begin and end.
fn float_span(record: &[u8]) -> (usize, usize) {
    match kind_of(record) {
        1 => (14, 46),
        2 => (10, 26),
        3 => (10, record.len()),
        4 => (18, 122),
        _ => (16, 48),
    }
}

fn length_fault(record: &mut Vec<u8>, rng: &mut Rng) {
    let length = record.len() as u32;
    let fault = rng.pick(&[0, 1, 5, length - 1, length + 1, length + 4, u32::MAX, 6, length + 4096]);
    put(record, 0, &fault.to_le_bytes());
}

fn kind_fault(record: &mut Vec<u8>, rng: &mut Rng) {
    match rng.below(4) {
        0 => put(record, 4, &rng.pick(&[0u16, 6, 15, 20, 256, 65535]).to_le_bytes()),
        1 => put(record, 4, &rng.pick(&[1u16, 2, 3, 4, 5]).to_le_bytes()),
        2 => {
            // A longer or shorter body, with the length field in step.
            let size = rng.pick(&[6, 10, 25, 26, 45, 47, 54, 56, 121, 123, 538, 539, 810, 811, 826]);
            record.resize(size, 0);
            put(record, 0, &(size as u32).to_le_bytes());
        }
        _ => put(record, 48 + 2 * rng.size(0, 3), &(rng.below(4) as u16).to_le_bytes()),
    }
}

fn field_fault(record: &mut Vec<u8>, rng: &mut Rng) {
    if kind_of(record) == 4 {
        match rng.below(6) {
            0 => put(record, 6, &rng.pick(&[32_767u16, 32_768, 65_535]).to_le_bytes()),
            1 => put(record, 8, &rng.pick(&[32_767u16, 32_768, 65_535]).to_le_bytes()),
            2 => put(record, 10, &rng.pick(&[0u16, 1, 4, 8, 0x8000, 7]).to_le_bytes()),
            3 => put(record, 12, &rng.pick(&[0u16, 6, 255, 5]).to_le_bytes()),
            4 => {
                put(record, 12, &5u16.to_le_bytes());
                put(record, 14, &u32::MAX.to_le_bytes());
            }
            _ => {
                put(record, 10, &0u16.to_le_bytes());
                put(record, 90 + rng.size(0, 31), &[1]);
            }
        }
    } else {
        match rng.below(3) {
            0 => put(record, 6, &rng.pick(&[2u16, 3, 0x8000, 0]).to_le_bytes()),
            1 => {
                put(record, 6, &0u16.to_le_bytes());
                put(record, 16, &(-0.0f64).to_le_bytes());
            }
            _ => {
                put(record, 6, &0u16.to_le_bytes());
                put(record, 16 + rng.size(0, 31), &[0x80]);
            }
        }
    }
}

fn float_fault(record: &mut Vec<u8>, rng: &mut Rng) {
    let (start, end) = float_span(record);
    let places = (end.min(record.len()) - start) / 8;
    let at = start + 8 * rng.below(places as u64) as usize;
    put(record, at, &rng.pick(&NOT_FINITE).to_le_bytes());
}

fn number_fault(record: &mut Vec<u8>, rng: &mut Rng) {
    let far = rng.pick(&[3u32, 7, 99, 65_536, u32::MAX, u32::MAX - 1]);
    if kind_of(record) == 4 {
        put(record, 12, &(rng.range(1, 5) as u16).to_le_bytes());
        put(record, 14, &far.to_le_bytes());
    } else if record.len() > 56 {
        let places = (record.len() - 56) / 4;
        put(record, 56 + 4 * rng.below(places as u64) as usize, &far.to_le_bytes());
    }
}

fn strike(records: &mut [Vec<u8>], rng: &mut Rng) {
    if records.is_empty() {
        return;
    }
    // Fields and numbers are looked for in references and cells.
    let fault = rng.below(5);
    let mut choice = rng.below(records.len() as u64) as usize;
    for _ in 0..20 {
        if fault < 2 || fault == 3 || kind_of(&records[choice]) >= 4 {
            break;
        }
        choice = rng.below(records.len() as u64) as usize;
    }
    let record = &mut records[choice];
    match fault {
        0 => length_fault(record, rng),
        1 => kind_fault(record, rng),
        2 if kind_of(record) >= 4 => field_fault(record, rng),
        3 => float_fault(record, rng),
        _ if kind_of(record) >= 4 => number_fault(record, rng),
        _ => float_fault(record, rng),
    }
}

fn strike_query(query: &mut Query, rng: &mut Rng) {
    match rng.below(6) {
        0 => query.view[rng.size(0, 3)] = rng.pick(&NOT_FINITE),
        1 => query.view.swap(0, 2),
        2 => query.view = [1.0, 2.0, 3.0, f64::from_bits(2f64.to_bits() - 1)],
        3 => query.zoom = rng.pick(&[0.0, -0.0, -1.0, f64::NAN, f64::INFINITY, -f64::from_bits(1), f64::from_bits(1)]),
        4 => query.depth = rng.pick(&[32, 33, 34, 48, 49, 65_536, u32::MAX]),
        _ => query.root = rng.pick(&[4096, u32::MAX, 77]),
    }
}

/// A sheet with one or two faults, sometimes under a faulty query.
pub fn refusals(rng: &mut Rng) -> Vec<u8> {
    let (mut query, sheet) = square(rng);
    let mut records = records(&sheet, rng);
    for _ in 0..rng.size(1, 2) {
        strike(&mut records, rng);
    }
    if rng.chance(1, 3) {
        strike_query(&mut query, rng);
    }
    let mut bytes = query_bytes(&query);
    bytes.extend(records.concat());
    if rng.chance(1, 6) {
        let cut = rng.size(1, 8).min(bytes.len() - 54);
        bytes.truncate(bytes.len() - cut);
    } else if rng.chance(1, 12) {
        bytes.extend((0..rng.size(1, 7)).map(|_| 0));
    }
    bytes
}

/// A sound sheet under a faulty query.
pub fn query_faults(rng: &mut Rng) -> Vec<u8> {
    let (mut query, sheet) = square(rng);
    for _ in 0..rng.size(1, 3) {
        strike_query(&mut query, rng);
    }
    super::encode::input(&query, &sheet, rng)
}

/// A first record that is no whole query, or only just is one.
pub fn no_query(rng: &mut Rng) -> Vec<u8> {
    let (query, sheet) = square(rng);
    let mut bytes = super::encode::input(&query, &sheet, rng);
    let length = bytes.len() as u32;
    match rng.below(6) {
        0 => bytes.truncate(rng.size(0, 53)),
        1 => put(&mut bytes, 0, &rng.pick(&[0, 53, 55, 56, 57, length + 1, length + 4, u32::MAX, 6]).to_le_bytes()),
        2 => put(&mut bytes, 4, &rng.pick(&[0u16, 1, 5, 19, 21, 20 << 8, 65535]).to_le_bytes()),
        3 => put(&mut bytes, 0, &(54 + 4 * rng.below(40) as u32).to_le_bytes()),
        4 => put(&mut bytes, 0, &rng.pick(&[length, length - 1, length - 2, length - 4]).to_le_bytes()),
        _ => bytes = (0..rng.size(0, 80)).map(|_| rng.next() as u8).collect(),
    }
    bytes
}

/// A whole query before bytes at random.
pub fn noise(rng: &mut Rng) -> Vec<u8> {
    let (query, _) = square(rng);
    let mut bytes = query_bytes(&query);
    let count = rng.size(0, 200);
    let mask = rng.pick(&[0xff, 0x07, 0x3f]);
    bytes.extend((0..count).map(|_| rng.next() as u8 & mask));
    bytes
}
