// The finder beside a sheet: its places, number 13 when planning, and one call of the library that opens a sheet.
// States document 02's Paper 1; rests on no Rattle code.

use super::reader;
use crate::answer::{Answer, Refusal};

/// "the offset of every record, by kind and then by number": of a sheet that questions 1 to 7 accept.
pub fn own(sheet: &[u8]) -> Vec<u32> {
    let mut records = Vec::new();
    let mut at = 0;
    while at < sheet.len() {
        let length = u32::from_le_bytes(sheet[at..at + 4].try_into().unwrap());
        let kind = u16::from_le_bytes([sheet[at + 4], sheet[at + 5]]);
        records.push((kind, at as u32));
        at += length as usize;
    }
    // Items count from 0 within their kind, in the order of the records: within a kind offsets rise with the numbers.
    records.sort();
    records.into_iter().map(|(_, offset)| offset).collect()
}

/// Number 13 when planning: "the finder is short or [...] differs from the sheet's". What stands past the sheet's
/// places does not matter.
pub fn check(sheet: &[u8], finder: &[u32]) -> Result<(), Refusal> {
    let own = own(sheet);
    if finder.len() < own.len() || finder[..own.len()] != own {
        return Err(Refusal { number: 13, offset: 0 });
    }
    Ok(())
}

/// One call that opens a sheet: questions 1 to 7, then 13 if the lent list is short, else the list is filled.
/// The answer's length is the number of the sheet's places, also where the list is short.
pub fn open(sheet: &[u8], list: &mut [u32]) -> Answer {
    if let Err(Refusal { number, offset }) = reader::open(sheet) {
        return Answer { number, offset, length: 0 };
    }
    let own = own(sheet);
    let length = own.len() as u64;
    if list.len() < own.len() {
        list.fill(0);
        return Answer { number: 13, offset: 0, length };
    }
    list[..own.len()].copy_from_slice(&own);
    Answer { number: 0, offset: 0, length }
}
