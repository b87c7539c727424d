//! Lists that stand in a sheet's record: the points of a node, the numbers of a cell.

use std::fmt;
use std::iter::FusedIterator;

/// The places of a list in order, read as they are asked for. Each has `N` bytes in the sheet.
#[derive(Clone)]
pub struct List<'a, T, const N: usize> {
    rest: &'a [u8],
    read: fn([u8; N]) -> T,
}

/// The points of a node: x, y each.
pub type Points<'a> = List<'a, [f64; 2], 16>;
/// Numbers of records, as a cell lists them.
pub type Numbers<'a> = List<'a, u32, 4>;

impl<'a> Points<'a> {
    /// Of whole points.
    pub(super) fn points(bytes: &'a [u8]) -> Self {
        Self {
            rest: bytes,
            read: |bytes| {
                let both = u128::from_le_bytes(bytes);
                [both, both >> 64].map(|half| f64::from_bits(half as u64))
            },
        }
    }
}

impl<'a> Numbers<'a> {
    /// Of whole numbers.
    pub(super) fn numbers(bytes: &'a [u8]) -> Self {
        Self {
            rest: bytes,
            read: u32::from_le_bytes,
        }
    }
}

impl<T, const N: usize> Iterator for List<'_, T, N> {
    type Item = T;

    fn next(&mut self) -> Option<T> {
        let (first, rest) = self.rest.split_first_chunk()?;
        self.rest = rest;
        Some((self.read)(*first))
    }

    fn size_hint(&self) -> (usize, Option<usize>) {
        let left = self.rest.len() / N;
        (left, Some(left))
    }
}

impl<T, const N: usize> ExactSizeIterator for List<'_, T, N> {}

impl<T, const N: usize> FusedIterator for List<'_, T, N> {}

impl<T: Clone + PartialEq, const N: usize> PartialEq for List<'_, T, N> {
    fn eq(&self, other: &Self) -> bool {
        Iterator::eq(self.clone(), other.clone())
    }
}

impl<T: Clone + fmt::Debug, const N: usize> fmt::Debug for List<'_, T, N> {
    fn fmt(&self, f: &mut fmt::Formatter) -> fmt::Result {
        f.debug_list().entries(self.clone()).finish()
    }
}
