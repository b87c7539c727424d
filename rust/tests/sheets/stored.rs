//! The judge's stored cases.

use std::fs;

pub struct Stored(Vec<u8>);

impl Stored {
    pub fn read() -> Self {
        let store = concat!(env!("CARGO_MANIFEST_DIR"), "/../crates/plan_vectors/stdin");
        Self(fs::read(store).expect("the stored cases"))
    }

    /// Each case: the input (a query, then the sheet) and the text that is printed for it.
    pub fn cases(&self) -> Vec<(&[u8], &str)> {
        let mut cases = Vec::new();
        let mut rest = &self.0[..];
        while let Some((&[a, b, c, d, e, f, g, h], after)) = rest.split_first_chunk() {
            let length = |bytes| u32::from_le_bytes(bytes) as usize;
            let (input, after) = after.split_at(length([a, b, c, d]));
            let (text, after) = after.split_at(length([e, f, g, h]));
            cases.push((input, std::str::from_utf8(text).expect("text")));
            rest = after;
        }
        assert_eq!(rest, b"");
        cases
    }
}
