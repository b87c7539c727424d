// Random cases that were chosen because they show a planted mistake that the others do not: family and seed.

pub const CHOSEN: &[(&str, u64)] = &[
    ("chains", 110), // sizes are narrowed before they are zoomed
    ("density", 21), // a cell's own units count once for the cell and once for its batches
    ("any-turns", 985), // a product that is not finite is not fused
    ("scaled", 213), // a subnormal width is 0
];
