//! What is asked of a sheet.

use crate::WorldBBox;

/// What is asked of a sheet. There is no default: a view or a depth that nobody chose would leave blanks.
///
/// ```
/// use ribaltzen::{Query, WorldBBox, hidden_layer};
///
/// let view = WorldBBox::new(0.0, 0.0, 1000.0, 600.0);
/// let query = Query {
///     hidden: &[hidden_layer(63, 0)],
///     ..Query::new(2, 8, view, 1.0)
/// };
/// assert_eq!((query.root, query.depth, query.hidden.len()), (2, 8, 1));
/// ```
#[derive(Clone, Copy, Debug, PartialEq)]
pub struct Query<'a> {
    /// The number of the cell to plan; one that the sheet lacks gives an empty plan.
    pub root: u32,
    /// At most [`crate::MOST_DEPTH`]. Depth 0 gives just one proxy, depth 1 the root's own items with its references as
    /// proxies, and each further depth opens one more level of references.
    pub depth: u32,
    /// What is seen: finite, min at most max.
    pub view: WorldBBox,
    /// Pixels for each unit: finite and above 0.
    pub zoom: f64,
    /// Layers that are left out, each by [`hidden_layer`].
    pub hidden: &'a [u32],
}

impl Query<'_> {
    /// A query that hides nothing.
    pub const fn new(root: u32, depth: u32, view: WorldBBox, zoom: f64) -> Self {
        Self {
            root,
            depth,
            view,
            zoom,
            hidden: &[],
        }
    }
}

/// A layer and a data type (for nodes their type) as a query hides them.
pub const fn hidden_layer(layer: u16, data_type: u16) -> u32 {
    (layer as u32) << 16 | data_type as u32
}
