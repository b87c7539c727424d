//! The switch: every place of the translated code asks it, and it changes one test by one, or none.

pub mod switch {
    use std::sync::atomic::{AtomicU32, Ordering::Relaxed};

    /// The change that is made: 0 for none. A place has the two changes `first` and `first + 1`.
    pub static CHANGE: AtomicU32 = AtomicU32::new(0);

    /// The call for which the change is made: 0 for every one. And the call that is under way.
    pub static CALL: AtomicU32 = AtomicU32::new(0);
    static UNDER_WAY: AtomicU32 = AtomicU32::new(0);

    /// Runs a call, noting which it is.
    #[inline(always)]
    pub fn from<R>(call: u32, run: impl FnOnce() -> R) -> R {
        let before = UNDER_WAY.load(Relaxed);
        UNDER_WAY.store(call, Relaxed);
        let result = run();
        UNDER_WAY.store(before, Relaxed);
        result
    }

    #[inline(always)]
    fn change(first: u32) -> u32 {
        let change = CHANGE.load(Relaxed).wrapping_sub(first);
        if change < 2 {
            let call = CALL.load(Relaxed);
            if call != 0 && call != UNDER_WAY.load(Relaxed) {
                return 2;
            }
        }
        change
    }

    /// A number with the ones beside it. An integer is widened, so that no change wraps; beside a float stand the next floats.
    pub trait Number: Copy + PartialOrd {
        type Wide: Copy + PartialOrd;
        fn wide(self) -> Self::Wide;
        fn up(self) -> Self::Wide;
        fn down(self) -> Self::Wide;
    }

    macro_rules! integer {
        ($($name:ty)*) => {$(
            impl Number for $name {
                type Wide = i128;
                fn wide(self) -> i128 { self as i128 }
                fn up(self) -> i128 { self as i128 + 1 }
                fn down(self) -> i128 { self as i128 - 1 }
            }
        )*};
    }

    macro_rules! step {
        ($($name:ty)*) => {$(
            impl Step for $name {
                fn after(self) -> Self { self.wrapping_add(1) }
                fn before(self) -> Self { self.wrapping_sub(1) }
            }
        )*};
    }

    macro_rules! float {
        ($($name:ty)*) => {$(
            impl Number for $name {
                type Wide = $name;
                fn wide(self) -> $name { self }
                fn up(self) -> $name { self.next_up() }
                fn down(self) -> $name { self.next_down() }
            }
            impl Step for $name {
                fn after(self) -> Self { self.next_up() }
                fn before(self) -> Self { self.next_down() }
            }
        )*};
    }

    /// A number as the machine steps it.
    pub trait Step: Copy {
        fn after(self) -> Self;
        fn before(self) -> Self;
    }

    /// An error's kind is stepped by its place in Rust's list.
    impl Number for std::io::ErrorKind {
        type Wide = i128;
        fn wide(self) -> i128 { self as i128 }
        fn up(self) -> i128 { self as i128 + 1 }
        fn down(self) -> i128 { self as i128 - 1 }
    }

    /// Beside the least and the greatest number of 128 bits stand others yet.
    impl Number for u128 {
        type Wide = (i8, u128);
        fn wide(self) -> (i8, u128) { (0, self) }
        fn up(self) -> (i8, u128) { self.checked_add(1).map_or((1, 0), Self::wide) }
        fn down(self) -> (i8, u128) { self.checked_sub(1).map_or((-1, 0), Self::wide) }
    }

    integer!(u8 u16 u32 u64 usize i32 isize);
    step!(u8 u16 u32 u64 u128 usize i32 isize);
    float!(f32 f64);

    macro_rules! comparison {
        ($name:ident, $test:tt, $first:expr, $second:expr) => {
            #[inline(always)]
            pub fn $name<N: Number>(place: u32, a: N, b: N) -> bool {
                let (first, second): (fn(N, N) -> bool, fn(N, N) -> bool) = ($first, $second);
                match change(place) {
                    0 => first(a, b),
                    1 => second(a, b),
                    _ => a $test b,
                }
            }
        };
    }

    comparison!(less, <, |a, b| a <= b, |a, b| a.wide() < b.down());
    comparison!(at_most, <=, |a, b| a < b, |a, b| a.wide() <= b.up());
    comparison!(more, >, |a, b| a >= b, |a, b| a.wide() > b.up());
    comparison!(at_least, >=, |a, b| a > b, |a, b| a.wide() >= b.down());
    comparison!(same, ==, |a, b| a.wide() == b.up(), |a, b| a.wide() == b.down());
    comparison!(other, !=, |a, b| a.wide() != b.up(), |a, b| a.wide() != b.down());

    /// The end of a range from 0 on: of an empty one no less.
    #[inline(always)]
    pub fn end<N: Step + PartialOrd + Default>(place: u32, n: N) -> N {
        match change(place) {
            0 => n.after(),
            1 if n > N::default() => n.before(),
            _ => n,
        }
    }

    #[inline(always)]
    pub fn number<N: Step>(place: u32, n: N) -> N {
        match change(place) {
            0 => n.after(),
            1 => n.before(),
            _ => n,
        }
    }
}
