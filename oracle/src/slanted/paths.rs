//! What a path leads to, and where it stands: one path followed through the sheet, with placements of either kind.

use super::placement::{Number, Placement, Vector, vector};
use crate::events::{Event, Step};
use crate::sheet::{Sheet, Source};

pub struct Reached<N> {
    source: Source,
    point: Option<u32>,
    pub position: Vector<N>,
    /// The references of the path, from the root on.
    pub references: Vec<u32>,
}

impl<N> Reached<N> {
    /// Whether a record has the number of the text, or the layer and type of the point.
    pub fn is_listed_by(&self, sheet: &Sheet, event: &Event) -> bool {
        match (event, self.source) {
            (Event::Text { number, .. }, Source::Text(own)) => *number == own,
            (Event::Point { layer, node_type, place, .. }, Source::Node(own)) => {
                let node = &sheet.nodes[own as usize];
                (*layer, *node_type) == (node.layer, node.node_type) && self.point == Some(*place)
            }
            _ => false,
        }
    }
}

/// The text or the point that a path from a root cell leads to, at its placement; none if it leads to neither.
pub fn follow<N: Number>(sheet: &Sheet, root: u32, path: &[Step]) -> Option<Reached<N>> {
    let mut placement = Placement::<N>::identity();
    let (mut source, mut point, mut references) = (Source::Cell(root), None, Vec::new());
    for step in path {
        source = match (source, *step) {
            (Source::Cell(cell), step) => listed(sheet, cell, step)?,
            (Source::Reference(number), Step::Member(column, row)) => {
                let reference = sheet.references.get(number as usize)?;
                if column >= u32::from(reference.columns) || row >= u32::from(reference.rows) {
                    return None;
                }
                placement = placement.times(&Placement::member(reference, column, row));
                references.push(number);
                reference.source
            }
            (Source::Node(_), Step::Point(place)) if point.is_none() => {
                point = Some(place);
                source
            }
            _ => return None,
        };
    }
    let own = match (source, point) {
        (Source::Text(number), None) => sheet.texts.get(number as usize)?.origin,
        (Source::Node(number), Some(place)) => *sheet.nodes.get(number as usize)?.points.get(place as usize)?,
        _ => return None,
    };
    Some(Reached { source, point, position: placement.point(&vector(own)), references })
}

/// What a cell has at a list place.
fn listed(sheet: &Sheet, cell: u32, step: Step) -> Option<Source> {
    let cell = sheet.cells.get(cell as usize)?;
    let at = |list: &[u32], place: u32| list.get(place as usize).copied();
    match step {
        Step::Text(place) => at(&cell.texts, place).map(Source::Text),
        Step::Node(place) => at(&cell.nodes, place).map(Source::Node),
        Step::Reference(place) => at(&cell.references, place).map(Source::Reference),
        _ => None,
    }
}
