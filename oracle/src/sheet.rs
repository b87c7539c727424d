//! A sheet and a query as plain values, after reading. States document 01's table of records.

#[derive(Clone, Debug, PartialEq)]
pub struct Batch {
    pub layer: u16,
    pub data_type: u16,
    pub elements: u32,
    pub bbox: [f64; 4],
}

/// A text without its value, which no plan shows. The coverage asks how many bytes the value had in the sheet that was
/// read; in a sheet that is not yet written their count is 0.
#[derive(Clone, Debug, PartialEq)]
pub struct Text {
    pub layer: u16,
    pub data_type: u16,
    pub origin: [f64; 2],
    pub value_bytes: usize,
}

#[derive(Clone, Debug, PartialEq)]
pub struct Node {
    pub layer: u16,
    pub node_type: u16,
    pub points: Vec<[f64; 2]>,
}

#[derive(Clone, Copy, Debug, PartialEq, Eq)]
pub enum Source {
    Batch(u32),
    Text(u32),
    Node(u32),
    Reference(u32),
    Cell(u32),
}

#[derive(Clone, Debug, PartialEq)]
pub struct Reference {
    pub columns: u16,
    pub rows: u16,
    pub reflection: bool,
    pub source: Source,
    pub origin: [f64; 2],
    pub spacing_x: [f64; 2],
    pub spacing_y: [f64; 2],
    pub magnification: f64,
    pub cos: f64,
    pub sin: f64,
    pub bbox: Option<[f64; 4]>,
}

#[derive(Clone, Debug, PartialEq)]
pub struct Cell {
    pub units: u64,
    pub bbox: Option<[f64; 4]>,
    pub batches: Vec<u32>,
    pub texts: Vec<u32>,
    pub nodes: Vec<u32>,
    pub references: Vec<u32>,
}

#[derive(Clone, Debug, Default, PartialEq)]
pub struct Sheet {
    pub batches: Vec<Batch>,
    pub texts: Vec<Text>,
    pub nodes: Vec<Node>,
    pub references: Vec<Reference>,
    pub cells: Vec<Cell>,
}

/// A query's values; hidden layers are layer × 65,536 + data type.
#[derive(Clone, Debug, Default, PartialEq)]
pub struct Query {
    pub root: u32,
    pub depth: u32,
    pub view: [f64; 4],
    pub zoom: f64,
    pub hidden: Vec<u32>,
}
