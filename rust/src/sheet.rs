//! A reader of sheets, kinds 1 to 5 of docs/FORMATS.md: it finds the layer or the text of a number that a plan lists.

mod items;
mod list;

use std::fmt;

pub use items::{Batch, Cell, Node, Reference, Source, Text};
pub use list::{List, Numbers, Points};

use crate::fields::{Fields, split_record};
use crate::{Damage, Damaged};

/// A sheet's records, by kind and number. Numbers count from 0 within a kind, in the order in which records stand.
///
/// ```
/// use ribaltzen::Sheet;
///
/// // A text of 3 bytes on layer 1, at (0, 0).
/// let mut bytes = vec![29, 0, 0, 0, 2, 0, 1, 0, 0, 0];
/// bytes.extend([0; 16]);
/// bytes.extend(b"VDD");
/// let sheet = Sheet::new(&bytes)?;
/// let text = sheet.text(0).expect("a text");
/// assert_eq!((text.layer, text.value, text.to_string()), (1, &b"VDD"[..], "VDD".to_string()));
/// assert_eq!(sheet.text(1), None);
/// # Ok::<(), ribaltzen::Damaged>(())
/// ```
#[derive(Clone)]
pub struct Sheet<'a> {
    batches: Vec<Batch>,
    texts: Vec<Text<'a>>,
    nodes: Vec<Node<'a>>,
    references: Vec<Reference>,
    cells: Vec<Cell<'a>>,
}

impl<'a> Sheet<'a> {
    /// Reads the records of a sheet, or says which is the first that cannot be read.
    ///
    /// That is the first record which the planner would refuse with number 2, 3 or 4. Whether the sheet is too long, floats
    /// are finite and numbers name records is not asked, so every sheet that the planner accepts can be read.
    pub fn new(bytes: &'a [u8]) -> Result<Self, Damaged> {
        let mut sheet = Self {
            batches: Vec::new(),
            texts: Vec::new(),
            nodes: Vec::new(),
            references: Vec::new(),
            cells: Vec::new(),
        };
        let mut rest = bytes;
        while !rest.is_empty() {
            let offset = bytes.len() - rest.len();
            rest = sheet
                .add_first(rest)
                .map_err(|why| Damaged { offset, why })?;
        }
        Ok(sheet)
    }

    /// Adds the first record; answers the bytes after it.
    fn add_first(&mut self, bytes: &'a [u8]) -> Result<&'a [u8], Damage> {
        let (kind, body, rest) = split_record(bytes)?;
        let fields = Fields::new(body);
        match kind {
            1 => self.batches.push(Batch::read(fields)?),
            2 => self.texts.push(Text::read(fields)?),
            3 => self.nodes.push(Node::read(fields)?),
            4 => self.references.push(Reference::read(fields)?),
            5 => self.cells.push(Cell::read(fields)?),
            _ => return Err(Damage::Kind),
        }
        Ok(rest)
    }

    /// All batches, in the order of their numbers.
    pub fn batches(&self) -> &[Batch] {
        &self.batches
    }

    /// All texts, in the order of their numbers.
    pub fn texts(&self) -> &[Text<'a>] {
        &self.texts
    }

    /// All nodes, in the order of their numbers.
    pub fn nodes(&self) -> &[Node<'a>] {
        &self.nodes
    }

    /// All references, in the order of their numbers.
    pub fn references(&self) -> &[Reference] {
        &self.references
    }

    /// All cells, in the order of their numbers.
    pub fn cells(&self) -> &[Cell<'a>] {
        &self.cells
    }

    /// The batch of a number, if the sheet has it.
    pub fn batch(&self, number: u32) -> Option<&Batch> {
        self.batches.get(number as usize)
    }

    /// The text of a number, if the sheet has it.
    pub fn text(&self, number: u32) -> Option<&Text<'a>> {
        self.texts.get(number as usize)
    }

    /// The node of a number, if the sheet has it.
    pub fn node(&self, number: u32) -> Option<&Node<'a>> {
        self.nodes.get(number as usize)
    }

    /// The reference of a number, if the sheet has it.
    pub fn reference(&self, number: u32) -> Option<&Reference> {
        self.references.get(number as usize)
    }

    /// The cell of a number, if the sheet has it.
    pub fn cell(&self, number: u32) -> Option<&Cell<'a>> {
        self.cells.get(number as usize)
    }
}

/// How many records of each kind there are: a sheet may have hundreds of thousands.
impl fmt::Debug for Sheet<'_> {
    fn fmt(&self, f: &mut fmt::Formatter) -> fmt::Result {
        f.debug_struct("Sheet")
            .field("batches", &self.batches.len())
            .field("texts", &self.texts.len())
            .field("nodes", &self.nodes.len())
            .field("references", &self.references.len())
            .field("cells", &self.cells.len())
            .finish()
    }
}
