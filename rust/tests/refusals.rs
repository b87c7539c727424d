//! Every refusal number through the static library, in words and in memory, and hostile bytes.

mod sheets;

use ribaltzen::{Buffers, Lent, MOST_SHEET, Query, Record, Refusal, WorldBBox, plan};
use sheets::random::Random;
use sheets::{batch, cell, record, reference, text, worked};

/// The page whose words the questions have.
const FORMATS: &str = include_str!("../../docs/FORMATS.md");

const SQUARE: [f64; 4] = [0.0, 0.0, 9.0, 9.0];
const QUERY: Query = Query::new(0, 1, WorldBBox::new(0.0, 0.0, 100.0, 100.0), 1.0);

/// Number and offset. Only number 12 says what is needed, and no call here gives it.
fn refused(sheet: &[u8], query: &Query) -> (u32, usize) {
    let refusal = plan(sheet, query, Buffers::new().lend()).unwrap_err();
    assert_eq!(refusal.needed, None);
    (refusal.number, refusal.offset)
}

fn of_sheet(sheet: &[u8]) -> (u32, usize) {
    refused(sheet, &QUERY)
}

#[test]
fn number_1_for_a_sheet_of_one_byte_too_many() {
    let mut sheet = vec![0; MOST_SHEET + 1];
    assert_eq!(of_sheet(&sheet), (1, 0));
    sheet.pop();
    assert_eq!(of_sheet(&sheet), (2, 0));
}

#[test]
fn numbers_2_to_5_at_the_first_record_at_fault() {
    let first = text(1, [0.0, 0.0], b"");
    let after = |bytes: Vec<u8>| of_sheet(&[first.clone(), bytes].concat());
    assert_eq!(after(vec![9; 5]), (2, 26));
    assert_eq!(after(record(6, &[])), (3, 26));
    assert_eq!(after(reference(32_768, 0, [0.0, 0.0], SQUARE)), (4, 26));
    assert_eq!(after(text(1, [0.0, f64::NAN], b"")), (5, 26));
    assert_eq!(after(batch(1, 1, [0.0, 0.0, f64::INFINITY, 1.0])), (5, 26));
}

#[test]
fn number_6_for_a_number_without_a_record() {
    let lists = cell(None, [&[], &[0, 1], &[], &[]]);
    assert_eq!(
        of_sheet(&[text(1, [0.0, 0.0], b""), lists].concat()),
        (6, 26)
    );
}

#[test]
fn number_7_before_number_6() {
    let bad = cell(None, [&[0], &[], &[], &[]]);
    let cells = cell(None, [&[]; 4]).repeat(4_096);
    assert_eq!(of_sheet(&[bad, cells].concat()), (7, 0));
}

#[test]
fn numbers_8_to_10_for_the_query() {
    let sheet = worked();
    let of_view = |view| refused(&sheet, &Query { view, ..QUERY });
    assert_eq!(of_view(WorldBBox::new(1.0, 0.0, 0.0, 0.0)), (8, 0));
    assert_eq!(
        of_view(WorldBBox::new(0.0, 0.0, 0.0, f64::INFINITY)),
        (8, 0)
    );
    for zoom in [0.0, -0.0, -1.0, f64::NAN, f64::INFINITY] {
        assert_eq!(refused(&sheet, &Query { zoom, ..QUERY }), (9, 0));
    }
    for depth in [49, u32::MAX] {
        assert_eq!(refused(&sheet, &Query { depth, ..QUERY }), (10, 0));
    }
}

/// The refusal and the memory after a call with so many bytes and places, all filled with 7.
fn with_sizes(
    out: usize,
    counts: usize,
    marks: usize,
) -> (Option<Refusal>, Vec<u8>, Vec<u64>, Vec<u8>) {
    let (mut o, mut c, mut m) = (vec![7u8; out], vec![7u64; counts], vec![7u8; marks]);
    let lent = Lent {
        out: &mut o,
        counts: &mut c,
        marks: &mut m,
    };
    let refusal = plan(&worked(), &QUERY, lent).err();
    (refusal, o, c, m)
}

fn refusal(number: u32, offset: usize, needed: Option<usize>) -> Refusal {
    Refusal {
        number,
        offset,
        needed,
    }
}

#[test]
fn number_11_touches_nothing() {
    let short = Some(refusal(11, 0, None));
    assert_eq!(
        with_sizes(88, 0, 3),
        (short, vec![7; 88], vec![], vec![7; 3])
    );
    assert_eq!(
        with_sizes(88, 1, 2),
        (short, vec![7; 88], vec![7], vec![7; 2])
    );
    assert_eq!(with_sizes(88, 1, 3).0, None);
}

#[test]
fn number_12_zeroes_the_output_and_says_what_is_needed() {
    for out in 0..88 {
        assert_eq!(
            with_sizes(out, 2, 4),
            (
                Some(refusal(12, 0, Some(88))),
                vec![0; out],
                vec![0, 7],
                vec![0, 0, 0, 7]
            )
        );
    }
    assert_eq!(with_sizes(88, 2, 4).0, None);
}

#[test]
fn a_refusal_says_what_was_asked() {
    assert_eq!(
        refusal(5, 26, None).to_string(),
        "refused with number 5 at the record at byte 26: Is every float finite? No."
    );
    assert_eq!(
        refusal(10, 0, None).to_string(),
        "refused with number 10: Is depth at most 48? No."
    );
    assert_eq!(
        refusal(12, 0, Some(88)).to_string(),
        "refused with number 12: Does the whole tape fit the lent output? No, the tape has 88 bytes."
    );
    assert_eq!(
        refusal(13, 0, None).to_string(),
        "refused with number 13: Is the finder long enough and, when planning, the sheet's own? No."
    );
    assert_eq!(
        refusal(13, 0, Some(8)).to_string(),
        "refused with number 13: Is the finder long enough and, when planning, the sheet's own? No, the sheet has 8 records."
    );
    for number in 1..=13 {
        let question = refusal(number, 0, None).question();
        let row = format!("| {number} | ");
        assert!(
            FORMATS
                .lines()
                .any(|line| line.starts_with(&row) && line.contains(question))
        );
    }
}

#[test]
fn hostile_bytes_get_an_answer() {
    let mut random = Random(1);
    let mut buffers = Buffers::with_sizes(400, 4, 3);
    let sound = worked();
    for round in 0..20_000 {
        let mut sheet = if round % 4 == 0 {
            vec![0; random.below(200)]
        } else {
            sound.clone()
        };
        for _ in 0..=random.below(4) {
            if !sheet.is_empty() {
                let place = random.below(sheet.len());
                sheet[place] = random.below(256) as u8;
            }
        }
        sheet.truncate(sheet.len() - random.below(3).min(sheet.len()));
        let query = Query {
            root: random.below(3) as u32,
            depth: random.below(5) as u32,
            ..QUERY
        };
        match plan(&sheet, &query, buffers.lend()) {
            Ok(plan) => assert!(matches!(plan.records().last(), Some(Record::Totals(_)))),
            Err(refusal) => {
                assert!((1..=12).contains(&refusal.number));
                assert!(refusal.offset <= sheet.len());
            }
        }
    }
}
