//! Document 02's Paper 4, worked out by hand: "The result keeps its width and meaning, also where a length field is FFFFFFFF
//! (hexadecimal)." Such a sheet is refused with number 2 at the record's offset, also where it has 16,777,216 bytes.

use super::{SEVEN, opened, plan_answer, sheet_of_seven};
use crate::answer::Answer;
use crate::generator::encode::query_bytes;
use crate::generator::full::{large_cases, last_listed};
use crate::generator::large::wide;
use crate::generator::make_large;
use crate::stored::answer;

fn prints(input: &[u8], expected: &str) -> bool {
    answer(input).text == expected.as_bytes()
}

/// Each of seven records in turn has the length, and the sheet is opened, planned with a finder, and planned without one.
fn refused_at_each_record(length: u32) -> bool {
    SEVEN.into_iter().all(|at| {
        let mut sheet = sheet_of_seven();
        sheet[at as usize..at as usize + 4].copy_from_slice(&length.to_le_bytes());
        opened(&sheet, 7, (2, at, 0), &[9; 7])
            && plan_answer(&sheet, &SEVEN, 3) == (Answer { number: 2, offset: at, length: 0 })
            && prints(&[query_bytes(&wide(3)), sheet].concat(), &format!("refused 2 {at}\n"))
    })
}

/// The large cases of a name are so many, and print this.
fn each_prints(name: &str, cases: usize, expected: &str) -> bool {
    let named: Vec<_> = large_cases().into_iter().filter(|large| large.name == name).collect();
    named.len() == cases && named.iter().all(|large| prints(&make_large(large), expected))
}

/// Texts of 26 bytes and one of 538 lie between two groups of 856 bytes: 645,192 of them, numbered from 1 on.
fn last_listed_is_planned() -> bool {
    let text = String::from_utf8(answer(&last_listed(26)).text).unwrap();
    let lines = |start| text.lines().filter(|line| line.starts_with(start)).count();
    lines("text 645193 ") == 3 && lines("batch 1 ") == 3 && lines("point 1 0 ") == 2 && text.ends_with("\ntotals 2 8 0 0 0 0 0\n")
}

pub fn readings() -> [(&'static str, bool); 10] {
    [
        ("a length of FFFFFFFF", refused_at_each_record(u32::MAX)),
        ("a length of FFFFFFFE", refused_at_each_record(u32::MAX - 1)),
        ("a length of 80000000", refused_at_each_record(0x8000_0000)),
        ("a length of 01000001", refused_at_each_record(0x0100_0001)),
        ("a full sheet, refused at its first record", each_prints("full sheet, its first length", 4, "refused 2 0\n")),
        ("a full sheet, refused at a middle record", each_prints("full sheet, a middle length", 6, "refused 2 8388608\n")),
        ("a full sheet, refused at its last record", each_prints("full sheet, its last length", 6, "refused 2 16777190\n")),
        ("a full sheet, refused at its last 6 bytes", each_prints("full sheet, a length in its last 6 bytes", 1, "refused 2 16777210\n")),
        ("a full sheet, its last record with a wrong number", each_prints("full sheet, a wrong number in its last record", 1, "refused 6 16777156\n")),
        ("a full sheet, its last records listed", last_listed_is_planned()),
    ]
}
