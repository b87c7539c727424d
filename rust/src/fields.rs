//! Records and their little-endian fields, read one after the other from any bytes. Nothing here can panic or overflow.

use crate::{Damage, WorldBBox};

/// The kind and the body of the first record, and the bytes after it.
pub fn split_record(bytes: &[u8]) -> Result<(u16, &[u8], &[u8]), Damage> {
    let &[a, b, c, d, kind, kind_high] = bytes.first_chunk().ok_or(Damage::CutHead)?;
    let length = u32::from_le_bytes([a, b, c, d]) as usize; // 64 bits: build.rs asks for x86-64
    let (record, rest) = bytes.split_at_checked(length).ok_or(Damage::Length)?;
    let body = record.get(6..).ok_or(Damage::Length)?;
    Ok((u16::from_le_bytes([kind, kind_high]), body, rest))
}

/// What is left to read of a record's body.
pub struct Fields<'a> {
    rest: &'a [u8],
}

impl<'a> Fields<'a> {
    pub fn new(body: &'a [u8]) -> Self {
        Self { rest: body }
    }

    /// So many bytes, or the record is too short for its kind.
    pub fn bytes(&mut self, count: usize) -> Result<&'a [u8], Damage> {
        let (first, rest) = self
            .rest
            .split_at_checked(count)
            .ok_or(Damage::LengthForKind)?;
        self.rest = rest;
        Ok(first)
    }

    fn array<const N: usize>(&mut self) -> Result<[u8; N], Damage> {
        let (first, rest) = self.rest.split_first_chunk().ok_or(Damage::LengthForKind)?;
        self.rest = rest;
        Ok(*first)
    }

    pub fn u16(&mut self) -> Result<u16, Damage> {
        self.array().map(u16::from_le_bytes)
    }

    pub fn u32(&mut self) -> Result<u32, Damage> {
        self.array().map(u32::from_le_bytes)
    }

    pub fn u64(&mut self) -> Result<u64, Damage> {
        self.array().map(u64::from_le_bytes)
    }

    pub fn f64(&mut self) -> Result<f64, Damage> {
        self.array().map(f64::from_le_bytes)
    }

    pub fn pair(&mut self) -> Result<[f64; 2], Damage> {
        Ok([self.f64()?, self.f64()?])
    }

    pub fn bbox(&mut self) -> Result<WorldBBox, Damage> {
        let ([min_x, min_y], [max_x, max_y]) = (self.pair()?, self.pair()?);
        Ok(WorldBBox::new(min_x, min_y, max_x, max_y))
    }

    /// All that is left.
    pub fn rest(self) -> &'a [u8] {
        self.rest
    }

    /// Nothing is left, or the record is too long for its kind.
    pub fn end(self) -> Result<(), Damage> {
        if self.rest.is_empty() {
            Ok(())
        } else {
            Err(Damage::LengthForKind)
        }
    }
}
