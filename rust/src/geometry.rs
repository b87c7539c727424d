//! Boxes and placements.

/// Four edges, which belong to the box.
#[derive(Clone, Copy, Debug, PartialEq)]
pub struct WorldBBox {
    /// The left edge.
    pub min_x: f64,
    /// The lower edge.
    pub min_y: f64,
    /// The right edge.
    pub max_x: f64,
    /// The upper edge.
    pub max_y: f64,
}

impl WorldBBox {
    /// A box by its edges, in the order of the formats.
    pub const fn new(min_x: f64, min_y: f64, max_x: f64, max_y: f64) -> Self {
        Self {
            min_x,
            min_y,
            max_x,
            max_y,
        }
    }
}

/// Where a batch is placed: its point (p, q) goes to (x_axis · p + y_axis · q) + translation.
#[derive(Clone, Copy, Debug, PartialEq)]
pub struct Placement {
    /// What p is multiplied by.
    pub x_axis: [f64; 2],
    /// What q is multiplied by.
    pub y_axis: [f64; 2],
    /// What is added last.
    pub translation: [f64; 2],
}
