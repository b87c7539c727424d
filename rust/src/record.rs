//! One record of a tape, kinds 11 to 15 of docs/FORMATS.md: its fields, its reading and its line.

use std::fmt;

use crate::fields::Fields;
use crate::{Damage, Placement, WorldBBox};

/// The bytes of each record, its length and kind included.
pub(crate) mod length {
    pub const BATCH: usize = 58;
    pub const TEXT: usize = 26;
    pub const POINT: usize = 26;
    pub const PROXY: usize = 42;
    pub const TOTALS: usize = 62;
}

/// The seven counts that close a plan. They stop at 2^64 − 1.
#[derive(Clone, Copy, Debug, Default, PartialEq, Eq)]
pub struct Totals {
    /// Cells that were opened.
    pub detail_cells: u64,
    /// Listed batches, texts and points together.
    pub detail_objects: u64,
    /// References and members of references whose box lies outside the view.
    pub culled_references: u64,
    /// Members of references under one pixel in width and in height, or of no finite size.
    pub skipped_references: u64,
    /// Batches whose box lies outside the view.
    pub culled_batches: u64,
    /// Batches under one pixel in width and in height, or of no finite size.
    pub skipped_batches: u64,
    /// Proxies that met a full list, which has 100,000.
    pub dropped_proxies: u64,
}

/// One record of a plan. Numbers are those of the sheet's records, from 0 within their kind: [`crate::Sheet`] finds them.
///
/// It is displayed as the line that the program `plan` prints: floats as the 16 hexadecimal digits of their bits, all else
/// decimal, a proxy without a label as `none`.
#[derive(Clone, Copy, Debug, PartialEq)]
pub enum Record {
    /// A batch is drawn.
    Batch {
        /// The batch of the sheet.
        number: u32,
        /// Where it is placed.
        placement: Placement,
    },
    /// A text is drawn.
    Text {
        /// The text of the sheet.
        number: u32,
        /// Where its origin is placed: x, y.
        position: [f64; 2],
    },
    /// One point of a node is drawn.
    Point {
        /// The node's layer.
        layer: u16,
        /// The node's type.
        node_type: u16,
        /// Where the point is placed: x, y.
        position: [f64; 2],
    },
    /// A part that shrank to a box.
    Proxy {
        /// The number of its cell, where it is one; the sheet may lack that cell.
        label: Option<u32>,
        /// The box.
        bbox: WorldBBox,
    },
    /// The last record of every plan.
    Totals(Totals),
}

/// On the tape, for a proxy without a label.
const NO_LABEL: u32 = u32::MAX;

impl Record {
    pub(crate) fn read(kind: u16, body: &[u8]) -> Result<Self, Damage> {
        let mut fields = Fields::new(body);
        let record = match kind {
            11 => Self::Batch {
                number: fields.u32()?,
                placement: Placement {
                    x_axis: fields.pair()?,
                    y_axis: fields.pair()?,
                    translation: fields.pair()?,
                },
            },
            12 => Self::Text {
                number: fields.u32()?,
                position: fields.pair()?,
            },
            13 => Self::Point {
                layer: fields.u16()?,
                node_type: fields.u16()?,
                position: fields.pair()?,
            },
            14 => Self::Proxy {
                label: Some(fields.u32()?).filter(|&label| label != NO_LABEL),
                bbox: fields.bbox()?,
            },
            15 => Self::Totals(Totals {
                detail_cells: fields.u64()?,
                detail_objects: fields.u64()?,
                culled_references: fields.u64()?,
                skipped_references: fields.u64()?,
                culled_batches: fields.u64()?,
                skipped_batches: fields.u64()?,
                dropped_proxies: fields.u64()?,
            }),
            _ => return Err(Damage::Kind),
        };
        fields.end()?;
        Ok(record)
    }
}

impl fmt::Display for Record {
    fn fmt(&self, f: &mut fmt::Formatter) -> fmt::Result {
        match self {
            Self::Batch { number, placement } => {
                write!(f, "batch {number}")?;
                let Placement {
                    x_axis,
                    y_axis,
                    translation,
                } = placement;
                floats(f, x_axis.iter().chain(y_axis).chain(translation))
            }
            Self::Text { number, position } => {
                write!(f, "text {number}")?;
                floats(f, position)
            }
            Self::Point {
                layer,
                node_type,
                position,
            } => {
                write!(f, "point {layer} {node_type}")?;
                floats(f, position)
            }
            Self::Proxy { label, bbox } => {
                match label {
                    Some(label) => write!(f, "proxy {label}")?,
                    None => f.write_str("proxy none")?,
                }
                floats(f, &[bbox.min_x, bbox.min_y, bbox.max_x, bbox.max_y])
            }
            Self::Totals(totals) => totals.fmt(f),
        }
    }
}

/// As the last line that the program `plan` prints.
impl fmt::Display for Totals {
    fn fmt(&self, f: &mut fmt::Formatter) -> fmt::Result {
        write!(
            f,
            "totals {} {} {} {} {} {} {}",
            self.detail_cells,
            self.detail_objects,
            self.culled_references,
            self.skipped_references,
            self.culled_batches,
            self.skipped_batches,
            self.dropped_proxies
        )
    }
}

fn floats<'a>(f: &mut fmt::Formatter, values: impl IntoIterator<Item = &'a f64>) -> fmt::Result {
    values
        .into_iter()
        .try_for_each(|value| write!(f, " {:016x}", value.to_bits()))
}
