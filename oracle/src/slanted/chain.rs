//! A chain of references down to one point, each with the member that the path goes through: what a slanted sheet is made around.

use super::bounds::{GREATEST, MOST_MEMBERS};
use super::kinds::Kind;
use super::placement::{Number, Placement, Vector, vector};
use crate::generator::boxes::member_point;
use crate::generator::encode::single;
use crate::generator::rng::Rng;
use crate::sheet::{Reference, Source};

#[derive(Clone)]
pub struct Link {
    /// Its source and box are the sheet's to say.
    pub reference: Reference,
    pub member: (u16, u16),
}

impl Link {
    /// How much its source is magnified.
    fn scale(&self) -> f64 {
        self.reference.magnification * stretch(&self.reference)
    }
}

#[derive(Clone)]
pub struct Chain {
    /// From the root on.
    pub links: Vec<Link>,
    pub point: [f64; 2],
}

/// How far the view reaches around the point, at most, and how far boxes reach around it.
pub const REACH: f64 = 16.0;

/// Members so far apart, as the root sees them, are not in view together.
const APART: f64 = 64.0 * REACH;

/// How much cos and sin lengthen what they turn: 1 for an angle's.
fn stretch(reference: &Reference) -> f64 {
    (reference.cos * reference.cos + reference.sin * reference.sin).sqrt()
}

fn size(pair: [f64; 2]) -> f64 {
    pair[0].abs().max(pair[1].abs())
}

/// Columns and rows. A plan opens at most 8,192 members; many only where they are far apart, else all would be in view.
fn extent(rng: &mut Rng, kind: Kind, reference: &Reference, outer: f64) -> (u16, u16) {
    if kind == Kind::Climbed {
        return rng.pick(&[(MOST_MEMBERS, 1), (1, MOST_MEMBERS), (MOST_MEMBERS, 8), (8, MOST_MEMBERS)]);
    }
    let steps = [reference.spacing_x, reference.spacing_y].map(|spacing| size(spacing) * stretch(reference));
    let [x, y] = steps.map(|step| step * outer.min(1.0) > APART);
    let few = rng.pick(&[(1, 1), (1, 1), (1, 1), (2, 1), (1, 2), (2, 2)]);
    match rng.below(64) {
        0..24 if x => (MOST_MEMBERS, 1),
        24..40 if y => (1, MOST_MEMBERS),
        40 if x && y => (MOST_MEMBERS, 8),
        41 if x && y => (8, MOST_MEMBERS),
        42 if x && y => (90, 91),
        43..48 if x && y => (rng.size(1, 64) as u16, rng.size(1, 16) as u16),
        _ => few,
    }
}

/// Mostly the last.
fn member(rng: &mut Rng, kind: Kind, (columns, rows): (u16, u16)) -> (u16, u16) {
    if kind == Kind::Climbed || rng.chance(3, 4) {
        return (columns - 1, rows - 1);
    }
    (rng.below(u64::from(columns)) as u16, rng.below(u64::from(rows)) as u16)
}

fn link(rng: &mut Rng, kind: Kind, outer: f64) -> Link {
    let (cos, sin) = kind.turn(rng);
    let mut reference = Reference {
        reflection: rng.chance(1, 2),
        origin: kind.pair(rng),
        spacing_x: kind.pair(rng),
        spacing_y: kind.pair(rng),
        magnification: kind.magnification(rng),
        cos,
        sin,
        ..single(Source::Text(0), None)
    };
    (reference.columns, reference.rows) = extent(rng, kind, &reference, outer);
    let member = member(rng, kind, (reference.columns, reference.rows));
    Link { reference, member }
}

impl Chain {
    pub fn new(rng: &mut Rng, kind: Kind, references: usize) -> Self {
        let mut links: Vec<Link> = Vec::new();
        let mut outer = 1.0;
        for _ in 0..references {
            let link = link(rng, kind, outer);
            outer *= link.scale();
            links.push(link);
        }
        let mut chain = Self { links, point: kind.pair(rng) };
        if kind == Kind::Cancelling && references > 0 {
            let place = rng.size(0, references - 1);
            chain.cancel(rng, place);
        }
        chain
    }

    /// Where the point is, as the root sees it, as each source on the way does, and as it is itself: near enough for boxes and views.
    pub fn places(&self) -> Vec<[f64; 2]> {
        let mut places = vec![self.point];
        for Link { reference, member: (column, row) } in self.links.iter().rev() {
            places.push(member_point(reference, *column, *row, places[places.len() - 1]));
        }
        places.reverse();
        places
    }

    /// How much each source on the way is magnified, as the root sees it.
    pub fn scales(&self) -> Vec<f64> {
        let mut scales = vec![1.0];
        scales.extend(self.links.iter().scan(1.0, |outer, link| {
            *outer *= link.scale();
            Some(*outer)
        }));
        scales
    }

    /// How many members the whole has.
    pub fn members(&self) -> u64 {
        let counts = self.links.iter().map(|link| u64::from(link.reference.columns) * u64::from(link.reference.rows));
        counts.fold(1, u64::saturating_mul)
    }

    /// Gives one reference a spacing that takes the point back to its origin.
    fn cancel(&mut self, rng: &mut Rng, place: usize) {
        let inner = self.places()[place + 1];
        let Link { reference, member } = &mut self.links[place];
        (reference.columns, reference.rows) = (MOST_MEMBERS, 1);
        *member = (MOST_MEMBERS - 1, 0);
        let last = f64::from(MOST_MEMBERS - 1);
        let most = GREATEST * last * 0.99;
        if size(inner) * reference.magnification > most {
            reference.magnification = most / size(inner);
        }
        let flip = if reference.reflection { -1.0 } else { 1.0 };
        let back = -reference.magnification / last;
        reference.spacing_x = [inner[0] * back, inner[1] * flip * back];
        if rng.chance(1, 2) {
            reference.origin = reference.origin.map(|value| value / GREATEST);
        }
    }

    /// Where document 01's steps put the point, in numbers of either kind.
    pub fn position<N: Number>(&self) -> Vector<N> {
        let below = |parent: Placement<N>, link: &Link| {
            let (column, row) = link.member;
            parent.times(&Placement::member(&link.reference, u32::from(column), u32::from(row)))
        };
        self.links.iter().fold(Placement::identity(), below).point(&vector(self.point))
    }
}
