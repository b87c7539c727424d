//! The reading of tapes: every way to damage one is reported once, and each record prints its line.

mod sheets;

use ribaltzen::{Buffers, Damage, Damaged, Query, Record, Records, Totals, WorldBBox, plan};
use sheets::{floats, of_every_kind, record};

/// A batch, a text, two points, a proxy, the totals.
const LENGTHS: [usize; 6] = [58, 26, 26, 26, 42, 62];

fn tape() -> Vec<u8> {
    let query = Query::new(0, 4, WorldBBox::new(0.0, 0.0, 100.0, 100.0), 1.0);
    plan(&of_every_kind(), &query, Buffers::new().lend())
        .unwrap()
        .tape()
        .to_vec()
}

/// How many records are read, and what ends them. Nothing may come after that.
fn read(tape: &[u8]) -> (usize, Option<Damaged>) {
    let mut records = Records::new(tape);
    let mut count = 0;
    let end = loop {
        match records.next() {
            Some(Ok(_)) => count += 1,
            Some(Err(damaged)) => break Some(damaged),
            None => break None,
        }
    };
    assert_eq!((records.next(), records.next()), (None, None));
    (count, end)
}

fn damaged(offset: usize, why: Damage) -> Option<Damaged> {
    Some(Damaged { offset, why })
}

#[test]
fn a_whole_tape_has_no_damage() {
    assert_eq!(read(&tape()), (LENGTHS.len(), None));
}

#[test]
fn every_cut_is_reported() {
    let tape = tape();
    let mut start = 0;
    for (index, length) in LENGTHS.into_iter().enumerate() {
        for place in start..start + length {
            let why = match place - start {
                0 => Damage::NoTotals,
                1..6 => Damage::CutHead,
                _ => Damage::Length,
            };
            assert_eq!(read(&tape[..place]), (index, damaged(start, why)));
        }
        start += length;
    }
    assert_eq!(start, tape.len());
}

/// The length has 4 bytes, the kind 2; other bytes are values, which no reader can check.
#[test]
fn every_changed_head_is_reported() {
    let tape = tape();
    let mut start = 0;
    for (index, length) in LENGTHS.into_iter().enumerate() {
        for place in start..start + length {
            let mut other = tape.clone();
            other[place] ^= 0xff;
            let (count, end) = read(&other);
            if place < start + 6 {
                assert_eq!((count, end.map(|end| end.offset)), (index, Some(start)));
            } else {
                assert_eq!((count, end), (LENGTHS.len(), None));
            }
        }
        start += length;
    }
}

#[test]
fn each_damage_by_its_name() {
    let totals = record(15, &[0; 56]);
    let before = |bytes: &[u8]| read(&[bytes, &totals].concat());
    assert_eq!(read(b""), (0, damaged(0, Damage::NoTotals)));
    assert_eq!(
        before(&[5, 0, 0, 0, 12, 0]),
        (0, damaged(0, Damage::Length))
    );
    assert_eq!(before(&[0xff; 6]), (0, damaged(0, Damage::Length)));
    assert_eq!(before(&record(10, &[0; 20])), (0, damaged(0, Damage::Kind)));
    assert_eq!(before(&record(16, &[0; 20])), (0, damaged(0, Damage::Kind)));
    assert_eq!(before(&totals), (1, damaged(62, Damage::AfterTotals)));
}

#[test]
fn each_kind_has_one_length() {
    for (kind, right) in [(11, 58), (12, 26), (13, 26), (14, 42), (15, 62)] {
        for length in 6..=70 {
            let tape = record(kind, &vec![0; length - 6]);
            let first = Records::new(&tape).next().expect("a record or its damage");
            let wrong = damaged(0, Damage::LengthForKind);
            assert_eq!(first.err(), if length == right { None } else { wrong });
        }
    }
}

#[test]
fn records_print_how_far_they_are() {
    let tape = tape();
    let mut records = Records::new(&tape);
    records.nth(1);
    assert_eq!(format!("{records:?}"), "Records { tape: 240, offset: 84 }");
}

#[test]
fn damage_says_where_and_what() {
    let tape = tape();
    let (_, end) = read(&tape[..tape.len() - 1]);
    assert_eq!(
        end.unwrap().to_string(),
        "damaged at byte 178: a record's length is below 6 or reaches past the end"
    );
}

/// What a tape of no plan at hand shows: a proxy without a label, and seven different totals.
#[test]
fn labels_and_totals_are_read() {
    let label = [0xff; 4];
    let bbox = floats(&[-0.0, f64::INFINITY, 1.0, -1.0]);
    let counts: Vec<u8> = (1..=7).flat_map(u64::to_le_bytes).collect();
    let tape = [
        record(14, &[&label, &bbox[..]].concat()),
        record(15, &counts),
    ]
    .concat();
    let records: Vec<Record> = Records::new(&tape).map(Result::unwrap).collect();
    let proxy = Record::Proxy {
        label: None,
        bbox: WorldBBox::new(-0.0, f64::INFINITY, 1.0, -1.0),
    };
    let totals = Totals {
        detail_cells: 1,
        detail_objects: 2,
        culled_references: 3,
        skipped_references: 4,
        culled_batches: 5,
        skipped_batches: 6,
        dropped_proxies: 7,
    };
    assert_eq!(records, [proxy, Record::Totals(totals)]);
    assert_eq!(
        [proxy.to_string(), totals.to_string()],
        [
            "proxy none 8000000000000000 7ff0000000000000 3ff0000000000000 bff0000000000000",
            "totals 1 2 3 4 5 6 7"
        ]
    );
}

/// The lines that the program `plan` prints; `oracle/compare` holds them against all stored answers.
#[test]
fn each_record_prints_its_line() {
    let tape = tape();
    let lines: Vec<String> = Records::new(&tape)
        .map(|record| record.unwrap().to_string())
        .collect();
    assert_eq!(
        lines,
        [
            "batch 0 3ff0000000000000 0000000000000000 0000000000000000 3ff0000000000000 0000000000000000 0000000000000000",
            "text 0 4014000000000000 4018000000000000",
            "point 3 9 3ff0000000000000 4000000000000000",
            "point 3 9 4008000000000000 4010000000000000",
            "proxy 1 4051800000000000 4054000000000000 4052000000000000 4054c00000000000",
            "totals 1 4 0 0 0 0 0",
        ]
    );
}
