//! The reader of sheets on the judge's stored cases: each sheet that was planned is read, and each number that was listed
//! is found; each that was refused with numbers 2 to 4 is damaged at the same record.

mod sheets;

use ribaltzen::{Damage, Sheet};
use sheets::stored::Stored;

fn decimal(word: Option<&str>) -> usize {
    word.expect("a field").parse().expect("a number")
}

/// The line's number, looked up as the line says.
fn hold_line(sheet: &Sheet, line: &str) {
    let mut words = line.split(' ');
    let kind = words.next();
    let number = words.next();
    match kind {
        Some("batch") => assert!(sheet.batch(decimal(number) as u32).is_some(), "{line}"),
        Some("text") => assert!(sheet.text(decimal(number) as u32).is_some(), "{line}"),
        Some("point") => {
            let layer = (decimal(number), decimal(words.next()));
            let of = |node: &ribaltzen::sheet::Node| (node.layer.into(), node.node_type.into());
            assert!(sheet.nodes().iter().any(|node| of(node) == layer), "{line}");
        }
        _ => {}
    }
}

/// Whether the case was planned.
fn hold(sheet: &[u8], text: &str) -> bool {
    let read = Sheet::new(sheet);
    let Some(refused) = text.strip_prefix("refused ") else {
        let sheet = read.expect("what was planned can be read");
        text.lines().for_each(|line| hold_line(&sheet, line));
        return true;
    };
    let mut words = refused.trim_end().split(' ');
    let (number, offset) = (decimal(words.next()), decimal(words.next()));
    match (number, read) {
        (2..=4, Err(damaged)) => {
            let of_number_2 = matches!(damaged.why, Damage::CutHead | Damage::Length);
            let of_number_4 = damaged.why == Damage::Value;
            assert_eq!(
                (number == 2, number == 4),
                (of_number_2, of_number_4),
                "{text}"
            );
            assert_eq!(damaged.offset, offset);
        }
        (5, read) => assert!(read.err().is_none_or(|damaged| damaged.offset > offset)),
        (number, read) => assert_eq!(read.is_err(), (2..=4).contains(&number), "{text}"),
    }
    false
}

#[test]
fn stored_cases() {
    let stored = Stored::read();
    let (mut planned, mut refused) = (0, 0);
    for (input, text) in stored.cases() {
        if text == "no query\n" {
            continue;
        }
        let query: [u8; 4] = *input.first_chunk().expect("a query");
        match hold(&input[u32::from_le_bytes(query) as usize..], text) {
            true => planned += 1,
            false => refused += 1,
        }
    }
    assert!(planned > 600 && refused > 200, "{planned} {refused}");
}
