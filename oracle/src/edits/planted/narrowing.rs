// Mistakes in lengths and offsets: document 02's Paper 4. A walk that goes back would not end, so it stops there.

use super::{Edit, Place, Planted, Seen, mistake};

/// A length that is not within the sheet passes question 2 where it meets a condition; no kind has such a length, so number 3 follows.
macro_rules! passes {
    ($name:literal, $condition:literal) => {
        mistake!($name, Reader, Seen::Stored,
            (1, "        let record = whole_record", concat!(
                "        if bytes.len() - offset >= HEAD {\n            let length = u32_at(bytes, offset);\n",
                "            if length as usize > bytes.len() - offset && ", $condition, " {\n                return Err(refuse(3));\n",
                "            }\n        }\n        let record = whole_record")))
    };
}

pub const TABLE: &[Planted] = &[
    // "also where a length field is FFFFFFFF"
    passes!("paper 4: a length is added to its offset in 32 bits and then compared", "length.wrapping_add(offset as u32) as usize <= bytes.len()"),
    passes!("paper 4: a length is added to its offset in 24 bits and then compared", "(length as usize + offset) % (1 << 24) <= bytes.len()"),
    passes!("paper 4: a length is taken from the sheet's in 32 bits and then compared", "(bytes.len() as u32).wrapping_sub(length) as usize >= offset"),
    passes!("paper 4: a length is compared as a signed number", "(length as i32) < 0"),
    passes!("paper 4: a length above the largest sheet's passes", "length as usize > MAX_SHEET_BYTES"),
    passes!("paper 4: a length of 16,777,217 passes", "length as usize == MAX_SHEET_BYTES + 1"),
    mistake!("paper 4: a length above the largest sheet's is refused with 1", Reader, Seen::Stored,
        (1, "        let record = whole_record", "        if bytes.len() - offset >= HEAD && u32_at(bytes, offset) as usize > MAX_SHEET_BYTES {\n            return Err(Refusal { number: 1, offset: 0 });\n        }\n        let record = whole_record")),
    mistake!("paper 4: a record of a length above the largest sheet's ends with the sheet", Reader, Seen::Stored,
        (1, "let length = u32_at(rest, 0) as usize;", "let length = u32_at(rest, 0) as usize;\n    let length = if length > MAX_SHEET_BYTES { rest.len() } else { length };")),
    mistake!("paper 4: a length's highest bit is passed over", Reader, Seen::Stored,
        (1, "let length = u32_at(rest, 0) as usize;", "let length = u32_at(rest, 0) as usize % (1 << 31);")),
    mistake!("paper 4: a length is read in 24 bits", Reader, Seen::Stored,
        (1, "let length = u32_at(rest, 0) as usize;", "let length = u32_at(rest, 0) as usize % (1 << 24);")),
    mistake!("paper 4: a length is read in 16 bits", Reader, Seen::Stored,
        (1, "let length = u32_at(rest, 0) as usize;", "let length = u32_at(rest, 0) as usize % (1 << 16);")),
    // "it shall carry 32-bit ones inside"
    mistake!("paper 4: the questions' offsets are kept in 24 bits", Reader, Seen::Stored,
        (1, "offset += record.len();", "let next = (offset + record.len()) % (1 << 24);\n        assert!(next > offset, \"the walk goes back\");\n        offset = next;")),
    mistake!("paper 4: the questions' offsets are kept in 16 bits", Reader, Seen::Stored,
        (1, "offset += record.len();", "let next = (offset + record.len()) % (1 << 16);\n        assert!(next > offset, \"the walk goes back\");\n        offset = next;")),
    mistake!("paper 4: the sheet's length is kept in 24 bits", Reader, Seen::Stored,
        (1, "while offset < bytes.len() {", "while offset < bytes.len() % (1 << 24) {")),
    mistake!("paper 4: the walk that fills and checks a finder keeps its offsets in 24 bits", Finder, Seen::Memory,
        (1, "at += length as usize;", "let next = (at + length as usize) % (1 << 24);\n        assert!(next > at, \"the walk goes back\");\n        at = next;")),
    // "The result keeps its width and meaning"
    mistake!("paper 4: numbers 2 to 5 are given with 16 bits of the offset", Reader, Seen::Stored,
        (1, "Refusal { number, offset: offset as u32 }", "Refusal { number, offset: u32::from(offset as u16) }")),
    mistake!("paper 4: number 6 is given with 16 bits of the offset", Reader, Seen::Stored,
        (1, "naming.push((kind, offset as u32));", "naming.push((kind, u32::from(offset as u16)));")),
    mistake!("paper 4: the places of a finder are kept in 16 bits", Finder, Seen::Memory,
        (1, ".map(|(_, offset)| offset)", ".map(|(_, offset)| offset % (1 << 16))")),
    mistake!("paper 4: the places of a finder are kept in 24 bits", Finder,
        Seen::Never("every record begins below 16,777,216, which is 2^24"),
        (1, ".map(|(_, offset)| offset)", ".map(|(_, offset)| offset % (1 << 24))")),
    mistake!("paper 4: an opened sheet gives 16 bits of its number of places", Finder, Seen::Memory,
        (1, "let length = own.len() as u64;", "let length = own.len() as u64 % (1 << 16);")),
    mistake!("paper 4: a finder's places are compared in 16 bits", Finder, Seen::Memory,
        (1, "finder[..own.len()] != own", "(0..own.len()).any(|at| (finder[at] ^ own[at]) % (1 << 16) != 0)")),
    mistake!("paper 4: a finder's places are compared in 24 bits", Finder, Seen::Memory,
        (1, "finder[..own.len()] != own", "(0..own.len()).any(|at| (finder[at] ^ own[at]) % (1 << 24) != 0)")),
    mistake!("paper 4: the highest bit of a finder's places is passed over", Finder, Seen::Memory,
        (1, "finder[..own.len()] != own", "(0..own.len()).any(|at| (finder[at] ^ own[at]) % (1 << 31) != 0)")),
];
