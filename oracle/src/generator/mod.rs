//! Seeded inputs for `plan`: families of random cases, cases made by hand, and large ones.

pub mod boxes;
pub mod deep;
pub mod descent;
pub mod edges;
pub mod encode;
pub mod families;
pub mod faults;
pub mod full;
pub mod full_list;
pub mod large;
pub mod long;
pub mod node_grids;
pub mod query;
#[cfg(feature = "library")]
pub mod raced;
pub mod refusals;
pub mod rng;
pub mod square;
pub mod unused;
pub mod wide;

use families::Pair;
use rng::Rng;

/// How a family makes an input.
#[derive(Clone, Copy)]
pub enum Make {
    Pair(fn(&mut Rng) -> Pair),
    /// With texts of up to 512 bytes.
    LongTexts(fn(&mut Rng) -> Pair),
    Bytes(fn(&mut Rng) -> Vec<u8>),
}

pub struct Family {
    pub name: &'static str,
    pub make: Make,
}

const fn pair(name: &'static str, make: fn(&mut Rng) -> Pair) -> Family {
    Family { name, make: Make::Pair(make) }
}

const fn bytes(name: &'static str, make: fn(&mut Rng) -> Vec<u8>) -> Family {
    Family { name, make: Make::Bytes(make) }
}

pub const FAMILIES: &[Family] = &[
    pair("square", families::square),
    pair("false-boxes", families::false_boxes),
    pair("slanted", families::slanted),
    pair("wild", families::wild),
    pair("nest", families::nest),
    pair("circles", families::circles),
    pair("missing", families::missing),
    pair("chains", families::chains),
    pair("empty-grids", families::empty_grids),
    pair("grid-sizes", families::grid_sizes),
    pair("density", families::density),
    pair("pixels", families::pixels),
    pair("hidden", families::hidden),
    pair("units", families::units),
    bytes("refusals", refusals::refusals),
    bytes("query-faults", refusals::query_faults),
    bytes("no-query", refusals::no_query),
    bytes("noise", refusals::noise),
    pair("scaled", wide::scaled),
    pair("any-floats", wide::any_floats),
    pair("any-turns", wide::any_turns),
    pair("any-views", wide::any_views),
    Family { name: "long-records", make: Make::LongTexts(long::long_records) },
    pair("long-lists", long::long_lists),
    pair("many-hidden", long::many_hidden),
    pair("many-cells", long::many_cells),
    pair("unused-sites", unused::unused_sites),
    pair("deep-nests", deep::deep_nests),
    pair("deep-queries", deep::deep_queries),
];

/// The input of one family at one seed.
pub fn make(family: &Family, seed: u64) -> Vec<u8> {
    let mut salt = Rng::new(seed);
    // Families differ at the same seed.
    for byte in family.name.bytes() {
        salt = Rng::new(salt.next() ^ u64::from(byte));
    }
    let mut rng = salt;
    match family.make {
        Make::Pair(make) => {
            let (query, sheet) = make(&mut rng);
            encode::input(&query, &sheet, &mut rng)
        }
        Make::LongTexts(make) => {
            let (query, sheet) = make(&mut rng);
            encode::input_with(&query, &sheet, encode::long_value, &mut rng)
        }
        Make::Bytes(make) => make(&mut rng),
    }
}

pub fn family(name: &str) -> Option<&'static Family> {
    FAMILIES.iter().find(|family| family.name == name)
}

pub fn make_large(large: &large::Large) -> Vec<u8> {
    (large.make)(&mut Rng::new(large.seed), large.seed)
}

/// The input of a case made by hand.
pub fn make_edge(edge: &edges::Edge) -> Vec<u8> {
    let mut rng = Rng::new(edge.label.len() as u64);
    encode::input(&edge.query, &edge.sheet, &mut rng)
}
