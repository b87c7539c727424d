// Planted mistakes: misreadings of document 01 and of document 02's papers, each made in a copy of the instrumented planner, of its stand-ins
// or of the judge. build.rs asserts every edit; the subcommand `planted` shows which cases detect each.

mod collapsing;
mod counting;
mod finding;
mod judging;
mod narrowing;
mod placing;
mod visiting;

use super::Edit;

/// Whose text is edited.
#[derive(Clone, Copy, PartialEq, Eq, Debug)]
pub enum Place {
    Planner,
    Reader,
    Finder,
    Call,
    Tape,
    Program,
}

/// Who must see the mistake.
#[derive(Clone, Copy, PartialEq, Eq, Debug)]
pub enum Seen {
    /// A stored case, small or large.
    Stored,
    /// A stored case, and the brute force of demand 3 as well.
    Cover,
    /// Only a call of the library, by its answer or by what it leaves in memory.
    Memory,
    /// Nothing can: the reason is given.
    Never(&'static str),
}

pub struct Planted {
    pub name: &'static str,
    pub place: Place,
    pub seen: Seen,
    /// Read by build.rs.
    #[allow(dead_code)]
    pub edits: &'static [Edit],
}

macro_rules! mistake {
    ($name:literal, $place:ident, $seen:expr, $(($count:literal, $find:literal, $put:expr)),+ $(,)?) => {
        Planted {
            name: $name,
            place: Place::$place,
            seen: $seen,
            edits: &[$(Edit { why: $name, count: $count, find: $find, put: $put }),+],
        }
    };
}
use mistake;

pub fn all() -> impl Iterator<Item = &'static Planted> {
    let tables =
        [placing::TABLE, collapsing::TABLE, counting::TABLE, visiting::TABLE, judging::TABLE, finding::TABLE, narrowing::TABLE];
    tables.into_iter().flatten()
}
