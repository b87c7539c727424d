//! The five kinds of a sheet's records, and their reading.

use std::fmt;

use super::list::{Numbers, Points};
use crate::fields::Fields;
use crate::{Damage, WorldBBox};

/// The most columns, and the most rows, of a reference.
const MOST_MEMBERS_A_SIDE: u16 = 32_767;
/// The most bytes of a text's value.
const MOST_VALUE: usize = 512;
/// The most points of a node.
const MOST_POINTS: usize = 50;

/// Shapes of one layer that are drawn together (kind 1).
#[derive(Clone, Copy, Debug, PartialEq)]
pub struct Batch {
    /// The layer.
    pub layer: u16,
    /// The data type.
    pub data_type: u16,
    /// How many shapes it has.
    pub element_count: u32,
    /// The box around them.
    pub bbox: WorldBBox,
}

impl Batch {
    pub(super) fn read(mut fields: Fields) -> Result<Self, Damage> {
        let batch = Self {
            layer: fields.u16()?,
            data_type: fields.u16()?,
            element_count: fields.u32()?,
            bbox: fields.bbox()?,
        };
        fields.end()?;
        Ok(batch)
    }
}

/// A text (kind 2). It is displayed as its value, with U+FFFD for what is no UTF-8 and for control characters, so that a
/// stranger's text stays on its line.
#[derive(Clone, Copy, Debug, PartialEq)]
pub struct Text<'a> {
    /// The layer.
    pub layer: u16,
    /// The data type.
    pub data_type: u16,
    /// Where it stands in its cell: x, y.
    pub origin: [f64; 2],
    /// Its value, at most 512 bytes of any kind.
    pub value: &'a [u8],
}

impl<'a> Text<'a> {
    pub(super) fn read(mut fields: Fields<'a>) -> Result<Self, Damage> {
        let text = Self {
            layer: fields.u16()?,
            data_type: fields.u16()?,
            origin: fields.pair()?,
            value: fields.rest(),
        };
        if text.value.len() > MOST_VALUE {
            return Err(Damage::LengthForKind);
        }
        Ok(text)
    }
}

impl fmt::Display for Text<'_> {
    fn fmt(&self, f: &mut fmt::Formatter) -> fmt::Result {
        let value = String::from_utf8_lossy(self.value);
        f.pad(&value.replace(char::is_control, "\u{fffd}"))
    }
}

/// Points of one layer (kind 3).
#[derive(Clone, Debug, PartialEq)]
pub struct Node<'a> {
    /// The layer.
    pub layer: u16,
    /// The node type.
    pub node_type: u16,
    points: Points<'a>,
}

impl<'a> Node<'a> {
    pub(super) fn read(mut fields: Fields<'a>) -> Result<Self, Damage> {
        let (layer, node_type) = (fields.u16()?, fields.u16()?);
        let points = fields.rest();
        if points.len() % 16 != 0 || !(1..=MOST_POINTS).contains(&(points.len() / 16)) {
            return Err(Damage::LengthForKind);
        }
        Ok(Self {
            layer,
            node_type,
            points: Points::points(points),
        })
    }

    /// Its 1 to 50 points.
    pub fn points(&self) -> Points<'a> {
        self.points.clone()
    }
}

/// What a reference places, by its number within its kind.
#[derive(Clone, Copy, Debug, PartialEq, Eq)]
pub enum Source {
    /// A batch.
    Batch(u32),
    /// A text.
    Text(u32),
    /// A node.
    Node(u32),
    /// An earlier reference.
    Reference(u32),
    /// A cell, which the sheet may lack.
    Cell(u32),
}

impl Source {
    fn read(kind: u16, number: u32) -> Result<Self, Damage> {
        match kind {
            1 => Ok(Self::Batch(number)),
            2 => Ok(Self::Text(number)),
            3 => Ok(Self::Node(number)),
            4 => Ok(Self::Reference(number)),
            5 if number < u32::MAX => Ok(Self::Cell(number)),
            _ => Err(Damage::Value),
        }
    }
}

/// A grid of columns × rows members, each of which places the source once (kind 4).
#[derive(Clone, Copy, Debug, PartialEq)]
pub struct Reference {
    /// At most 32,767.
    pub columns: u16,
    /// At most 32,767.
    pub rows: u16,
    /// Whether y is negated, before all else is done.
    pub reflection: bool,
    /// What is placed.
    pub source: Source,
    /// Where the first member stands: x, y.
    pub origin: [f64; 2],
    /// What is added for each column, and rotated with the members: x, y.
    pub spacing_x: [f64; 2],
    /// What is added for each row, and rotated with the members: x, y.
    pub spacing_y: [f64; 2],
    /// What lengths are multiplied by.
    pub magnification: f64,
    /// The cosine of the rotation.
    pub cos: f64,
    /// The sine of the rotation.
    pub sin: f64,
    /// The source's box, where it has one.
    pub source_bbox: Option<WorldBBox>,
}

impl Reference {
    /// Length before values, as the planner asks.
    pub(super) fn read(mut fields: Fields) -> Result<Self, Damage> {
        let (columns, rows, flags) = (fields.u16()?, fields.u16()?, fields.u16()?);
        let (source_kind, source_number) = (fields.u16()?, fields.u32()?);
        let (origin, spacing_x, spacing_y) = (fields.pair()?, fields.pair()?, fields.pair()?);
        let (magnification, cos, sin) = (fields.f64()?, fields.f64()?, fields.f64()?);
        let bbox = fields.bbox()?;
        fields.end()?;
        if columns.max(rows) > MOST_MEMBERS_A_SIDE || flags > 3 {
            return Err(Damage::Value);
        }
        Ok(Self {
            columns,
            rows,
            reflection: flags & 1 != 0,
            source: Source::read(source_kind, source_number)?,
            origin,
            spacing_x,
            spacing_y,
            magnification,
            cos,
            sin,
            source_bbox: where_present(flags & 2 != 0, bbox)?,
        })
    }
}

/// A cell: its box, and the numbers of its items (kind 5).
#[derive(Clone, Debug, PartialEq)]
pub struct Cell<'a> {
    /// The box around all its items, where it has one.
    pub bbox: Option<WorldBBox>,
    /// The draw units of its own items.
    pub direct_draw_units: u64,
    batches: Numbers<'a>,
    texts: Numbers<'a>,
    nodes: Numbers<'a>,
    references: Numbers<'a>,
}

impl<'a> Cell<'a> {
    /// Length before values, as the planner asks.
    pub(super) fn read(mut fields: Fields<'a>) -> Result<Self, Damage> {
        let (flags, direct_draw_units, bbox) = (fields.u16()?, fields.u64()?, fields.bbox()?);
        let counts = [fields.u16()?, fields.u16()?, fields.u16()?, fields.u16()?];
        let mut list = |count| fields.bytes(4 * usize::from(count)).map(Numbers::numbers);
        let [batches, texts, nodes, references] = counts.map(&mut list);
        let (batches, texts, nodes, references) = (batches?, texts?, nodes?, references?);
        fields.end()?;
        if flags > 1 {
            return Err(Damage::Value);
        }
        Ok(Self {
            bbox: where_present(flags & 1 != 0, bbox)?,
            direct_draw_units,
            batches,
            texts,
            nodes,
            references,
        })
    }

    /// The numbers of its batches.
    pub fn batches(&self) -> Numbers<'a> {
        self.batches.clone()
    }

    /// The numbers of its texts.
    pub fn texts(&self) -> Numbers<'a> {
        self.texts.clone()
    }

    /// The numbers of its nodes.
    pub fn nodes(&self) -> Numbers<'a> {
        self.nodes.clone()
    }

    /// The numbers of its references.
    pub fn references(&self) -> Numbers<'a> {
        self.references.clone()
    }
}

/// A box that may be absent: then all its bytes are zero.
fn where_present(present: bool, bbox: WorldBBox) -> Result<Option<WorldBBox>, Damage> {
    let edges = [bbox.min_x, bbox.min_y, bbox.max_x, bbox.max_y];
    match present {
        true => Ok(Some(bbox)),
        false if edges.iter().all(|edge| edge.to_bits() == 0) => Ok(None),
        false => Err(Damage::Value),
    }
}
