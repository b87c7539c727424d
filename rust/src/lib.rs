// The crate: its page, its modules and the limits of the planner.
#![doc = include_str!("../README.md")]
#![deny(missing_docs)]

mod buffers;
mod call;
mod damaged;
mod fields;
mod finder;
mod float_environment;
mod geometry;
mod plan;
mod query;
mod record;
mod records;
mod refusal;
pub mod sheet;

pub use buffers::{Buffers, Lent};
pub use call::{plan, plan_with_finder};
pub use damaged::{Damage, Damaged};
pub use finder::{Finder, open};
pub use float_environment::float_environment_is_default;
pub use geometry::{Placement, WorldBBox};
pub use plan::{Plan, PlanRecords};
pub use query::{Query, hidden_layer};
pub use record::{Record, Totals};
pub use records::Records;
pub use refusal::Refusal;
pub use sheet::Sheet;

/// No plan has a longer tape, by the theorem `tape-at-most` of crates/totals: 100,000 proxies, 20,000 batches and the
/// totals.
pub const MOST_TAPE: usize =
    100_000 * record::length::PROXY + 20_000 * record::length::BATCH + record::length::TOTALS;
/// The most cells that a sheet may have.
pub const MOST_CELLS: usize = 4_096;
/// The greatest depth of a query.
pub const MOST_DEPTH: u32 = 48;
/// The most bytes that a sheet may have.
pub const MOST_SHEET: usize = 16_777_216;
/// The most records that a sheet may have, and so the places of a finder that are always enough.
pub const MOST_PLACES: usize = MOST_SHEET / finder::LEAST_RECORD;
