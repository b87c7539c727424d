//! Every path from a root, with its item and its exact placement, up to a bound: a circle has paths of any length.

use std::collections::HashMap;

use super::exact::{Placement, Sides, member, reference_sides, whole};
use crate::events::Step;
use crate::sheet::{Sheet, Source};

/// What a path leads to.
#[derive(Clone, Copy, Debug, PartialEq)]
pub enum Item {
    Batch { number: u32, placement: Placement },
    Text { number: u32, position: [i128; 2] },
    Point { layer: u16, node_type: u16, position: [i128; 2] },
}

/// A member that paths lead through.
#[derive(Clone, Copy)]
pub struct Passed {
    /// The source box at its exact placement, where there is one.
    pub sides: Option<Sides>,
    pub degenerate: bool,
    /// Of a member of a grid of bare node points: the exact box of the whole reference.
    pub node_grid: Option<Sides>,
}

pub struct Paths<'a> {
    sheet: &'a Sheet,
    members: usize,
    pub items: HashMap<Vec<Step>, Item>,
    pub passed: HashMap<Vec<Step>, Passed>,
    cap: usize,
    /// A path was left out for its length.
    pub cut: bool,
}

impl<'a> Paths<'a> {
    /// All paths of at most `members` members; none if they are more than `cap`.
    pub fn of(sheet: &'a Sheet, root: u32, members: usize, cap: usize) -> Option<Self> {
        let mut paths = Self {
            sheet,
            members,
            items: HashMap::new(),
            passed: HashMap::new(),
            cap,
            cut: false,
        };
        paths.cell(root, Placement::IDENTITY, &mut Vec::new(), 0);
        (paths.items.len() + paths.passed.len() <= cap).then_some(paths)
    }

    fn full(&self) -> bool {
        self.items.len() + self.passed.len() > self.cap
    }

    fn item(&mut self, path: &mut Vec<Step>, step: Option<Step>, item: Item) {
        let mut key = path.clone();
        key.extend(step);
        self.items.insert(key, item);
    }

    fn cell(&mut self, number: u32, placement: Placement, path: &mut Vec<Step>, length: usize) {
        let sheet = self.sheet;
        let Some(cell) = sheet.cells.get(number as usize) else { return };
        for (place, &batch) in (0..).zip(&cell.batches) {
            self.item(path, Some(Step::Batch(place)), Item::Batch { number: batch, placement });
        }
        for (place, &text) in (0..).zip(&cell.texts) {
            let position = placement.point(whole(sheet.texts[text as usize].origin));
            self.item(path, Some(Step::Text(place)), Item::Text { number: text, position });
        }
        for (place, &node) in (0..).zip(&cell.nodes) {
            path.push(Step::Node(place));
            self.node(node, placement, path);
            path.pop();
        }
        for (place, &reference) in (0..).zip(&cell.references) {
            path.push(Step::Reference(place));
            self.reference(reference, placement, path, length);
            path.pop();
        }
    }

    fn node(&mut self, number: u32, placement: Placement, path: &mut Vec<Step>) {
        let node = &self.sheet.nodes[number as usize];
        for (place, &point) in (0..).zip(&node.points) {
            let position = placement.point(whole(point));
            let item = Item::Point { layer: node.layer, node_type: node.node_type, position };
            self.item(path, Some(Step::Point(place)), item);
        }
    }

    fn reference(&mut self, number: u32, parent: Placement, path: &mut Vec<Step>, length: usize) {
        let reference = &self.sheet.references[number as usize];
        if length >= self.members {
            self.cut = true;
            return;
        }
        let is_node = matches!(reference.source, Source::Node(_));
        let node_grid = reference_sides(reference).filter(|_| is_node).map(|sides| parent.sides(sides));
        for column in 0..u32::from(reference.columns) {
            for row in 0..u32::from(reference.rows) {
                if self.full() {
                    return;
                }
                let placement = parent.times(&member(reference, column, row));
                path.push(Step::Member(column, row));
                let sides = reference.bbox.map(whole);
                let passed = Passed {
                    sides: sides.map(|sides| placement.sides(sides)),
                    degenerate: sides.is_some_and(|s| s[0] == s[2] || s[1] == s[3]),
                    node_grid,
                };
                self.passed.insert(path.clone(), passed);
                self.source(reference.source, placement, path, length + 1);
                path.pop();
            }
        }
    }

    fn source(&mut self, source: Source, placement: Placement, path: &mut Vec<Step>, length: usize) {
        match source {
            Source::Batch(number) => self.item(path, None, Item::Batch { number, placement }),
            Source::Text(number) => {
                let position = placement.point(whole(self.sheet.texts[number as usize].origin));
                self.item(path, None, Item::Text { number, position });
            }
            Source::Node(number) => self.node(number, placement, path),
            Source::Reference(number) => self.reference(number, placement, path, length),
            Source::Cell(number) => self.cell(number, placement, path, length),
        }
    }
}
