//! What a run must show at levels that only a depth above 32 reaches, so that it says what it tried of document 02's Paper 13.

use crate::levels::Deep;

/// What a long run must show.
pub const WANTED: &[(Deep, &str)] = &[
    (Deep::Batch, "a batch at level 33 or deeper"),
    (Deep::Text, "a text at level 33 or deeper"),
    (Deep::Point, "a node point at level 33 or deeper"),
    (Deep::Box, "a box at level 33 or deeper"),
    (Deep::Circle, "a circle's box at level 33 or deeper"),
    (Deep::Limit, "a limit's box at level 33 or deeper"),
    (Deep::Inner, "something behind an inner reference at level 33 or deeper"),
    (Deep::ItemAt48, "an item at level 48"),
];
