//! Lists for the calls with a finder: lengths to open a sheet into, and finders to plan with, the sheet's own and others.
//! What is made here may turn out to be the sheet's own finder (two equal places exchanged, another sheet's places that
//! begin alike): the judge decides, not the maker.

use crate::generator::rng::Rng;

/// How long a list is that a sheet is opened into.
#[derive(Clone, Copy, Debug, PartialEq, Eq, PartialOrd, Ord)]
pub enum Room {
    None,
    OneShort,
    Exact,
    OneLong,
    Any,
}

pub const ROOMS: [Room; 5] = [Room::None, Room::OneShort, Room::Exact, Room::OneLong, Room::Any];

/// How a finder came about that is planned with.
#[derive(Clone, Copy, Debug, PartialEq, Eq, PartialOrd, Ord)]
pub enum Kind {
    Own,
    /// The own one with any places past its end.
    Long,
    Short,
    /// Two places exchanged: any two, two of one kind, two of different kinds.
    Exchanged,
    ExchangedInKind,
    ExchangedAcross,
    /// The own places in any order.
    Shuffled,
    /// Another sheet's.
    Foreign,
    /// That of the sheet without its last record.
    Cut,
    /// That of the sheet with one record more.
    Grown,
    /// Any places, or all zero.
    Random,
    /// A place at the sheet's end or past it, or the own one with one bit more.
    Past,
    /// One place off by one.
    Off,
}

pub const KINDS: [Kind; 13] = [
    Kind::Own,
    Kind::Long,
    Kind::Short,
    Kind::Exchanged,
    Kind::ExchangedInKind,
    Kind::ExchangedAcross,
    Kind::Shuffled,
    Kind::Foreign,
    Kind::Cut,
    Kind::Grown,
    Kind::Random,
    Kind::Past,
    Kind::Off,
];

/// Places at random, none of them 0.
pub fn any_places(rng: &mut Rng, count: usize) -> Vec<u32> {
    (0..count).map(|_| rng.next() as u32 | 1).collect()
}

/// A list to open into, where so many places are needed.
pub fn list(room: Room, needed: usize, rng: &mut Rng) -> Vec<u32> {
    let length = match room {
        Room::None => 0,
        Room::OneShort => needed.saturating_sub(1),
        Room::Exact => needed,
        Room::OneLong => needed + 1,
        Room::Any => rng.size(0, 2 * needed + 9),
    };
    any_places(rng, length)
}

/// A finder with so many places more, at random.
fn with_room(mut finder: Vec<u32>, room: usize, rng: &mut Rng) -> Vec<u32> {
    finder.extend(any_places(rng, room));
    finder
}

/// What finders are made of: a sheet's own places, its bytes, and the places of another sheet.
pub struct Maker<'a> {
    pub own: &'a [u32],
    pub sheet: &'a [u8],
    pub foreign: &'a [u32],
}

impl Maker<'_> {
    pub fn make(&self, kind: Kind, rng: &mut Rng) -> Vec<u32> {
        let own = self.own.to_vec();
        match kind {
            Kind::Own => own,
            Kind::Long => with_room(own, rng.size(1, 9), rng),
            Kind::Short => own[..self.shorter(rng)].to_vec(),
            Kind::Exchanged => self.exchanged(rng, |_, _| true),
            Kind::ExchangedInKind => self.exchanged(rng, |a, b| a == b),
            Kind::ExchangedAcross => self.exchanged(rng, |a, b| a != b),
            Kind::Shuffled => self.shuffled(rng),
            Kind::Foreign => self.foreign.to_vec(),
            Kind::Cut => self.cut(rng),
            Kind::Grown => self.grown(rng),
            Kind::Random => self.random(rng),
            Kind::Past => self.changed(rng, |rng, place| {
                let end = self.sheet.len() as u32;
                let [low, middle, high] = [16, 24, 31].map(|bit| place | 1 << bit);
                rng.pick(&[end, end + 1, end + 4, 1 << 24, u32::MAX, u32::MAX - 5, low, middle, high])
            }),
            Kind::Off => self.changed(rng, |rng, place| if rng.chance(1, 2) { place.wrapping_sub(1) } else { place.wrapping_add(1) }),
        }
    }

    /// Every shorter length, and every place off by one to either side.
    #[cfg(feature = "library")]
    pub fn sweep(&self) -> Vec<(Kind, Vec<u32>)> {
        let shorter = (0..self.own.len()).map(|length| (Kind::Short, self.own[..length].to_vec()));
        let off = (0..self.own.len()).flat_map(|at| {
            [self.own[at].wrapping_sub(1), self.own[at].wrapping_add(1)].map(|place| {
                let mut finder = self.own.to_vec();
                finder[at] = place;
                (Kind::Off, finder)
            })
        });
        shorter.chain(off).collect()
    }

    fn shorter(&self, rng: &mut Rng) -> usize {
        match rng.below(4) {
            0 => 0,
            1 => rng.size(0, self.own.len()).min(self.own.len().saturating_sub(1)),
            _ => self.own.len().saturating_sub(1),
        }
    }

    fn kind_at(&self, place: u32) -> Option<&[u8]> {
        self.sheet.get(place as usize + 4..place as usize + 6)
    }

    /// Two places exchanged, of which the second is looked for after the first, all round.
    fn exchanged(&self, rng: &mut Rng, fits: fn(Option<&[u8]>, Option<&[u8]>) -> bool) -> Vec<u32> {
        let mut finder = self.own.to_vec();
        if finder.is_empty() {
            return finder;
        }
        let first = rng.size(0, finder.len() - 1);
        let start = rng.size(1, finder.len());
        let other = (start..start + finder.len())
            .map(|step| (first + step) % finder.len())
            .find(|&at| at != first && fits(self.kind_at(finder[first]), self.kind_at(finder[at])));
        if let Some(other) = other {
            finder.swap(first, other);
        }
        finder
    }

    /// Every order is as likely.
    fn shuffled(&self, rng: &mut Rng) -> Vec<u32> {
        let mut finder = self.own.to_vec();
        for last in (1..finder.len()).rev() {
            finder.swap(rng.size(0, last), last);
        }
        finder
    }

    fn cut(&self, rng: &mut Rng) -> Vec<u32> {
        let last = self.own.iter().max();
        let finder = self.own.iter().filter(|&place| Some(place) != last).copied().collect();
        let room = rng.size(0, 2);
        with_room(finder, room, rng)
    }

    /// The new record's place stands at the end of its kind.
    fn grown(&self, rng: &mut Rng) -> Vec<u32> {
        let mut finder = self.own.to_vec();
        let ends = (1..finder.len()).filter(|&at| self.kind_at(finder[at - 1]) != self.kind_at(finder[at]));
        let ends: Vec<usize> = ends.chain([finder.len()]).collect();
        finder.insert(rng.pick(&ends), self.sheet.len() as u32);
        finder
    }

    fn random(&self, rng: &mut Rng) -> Vec<u32> {
        let length = if rng.chance(1, 3) { rng.size(0, self.own.len() + 9) } else { self.own.len() };
        match rng.below(3) {
            0 => vec![0; length],
            1 => any_places(rng, length),
            _ => (0..length).map(|_| rng.below(self.sheet.len() as u64 + 1) as u32).collect(),
        }
    }

    fn changed(&self, rng: &mut Rng, change: impl FnOnce(&mut Rng, u32) -> u32) -> Vec<u32> {
        let mut finder = self.own.to_vec();
        if !finder.is_empty() {
            let at = rng.size(0, finder.len() - 1);
            finder[at] = change(rng, finder[at]);
        }
        finder
    }
}
