//! The proved functions as Rust sees them, and weighted random inputs for them.
//!
//! Nothing random is left to chance: a run is named by its seed.

extern "C" {
    fn floats_mul_add(x: f64, y: f64, z: f64) -> f64;
    fn floats_f64_to_f32(x: f64) -> f32;
    fn floats_u64_to_f32(n: u64) -> f32;
    fn floats_f64_abs(x: f64) -> f64;
}

#[inline(always)]
pub fn mul_add(x: f64, y: f64, z: f64) -> f64 {
    // SAFETY: the function takes and returns plain numbers, and is proved safe for every input.
    unsafe { floats_mul_add(x, y, z) }
}

#[inline(always)]
pub fn f64_to_f32(x: f64) -> f32 {
    // SAFETY: as above.
    unsafe { floats_f64_to_f32(x) }
}

#[inline(always)]
pub fn f64_abs(x: f64) -> f64 {
    // SAFETY: as above.
    unsafe { floats_f64_abs(x) }
}

#[inline(always)]
pub fn u64_to_f32(n: u64) -> f32 {
    // SAFETY: as above.
    unsafe { floats_u64_to_f32(n) }
}

/// The pattern of x, any NaN as 7FF8000000000000.
pub fn pattern64(x: f64) -> u64 {
    if x.is_nan() { 0x7ff8_0000_0000_0000 } else { x.to_bits() }
}

/// The pattern of x, any NaN as 7FC00000.
pub fn pattern32(x: f32) -> u32 {
    if x.is_nan() { 0x7fc0_0000 } else { x.to_bits() }
}

/// A 64-bit generator (xorshift with a multiplied output).
pub struct Random(u64);

impl Random {
    pub fn new(seed: u64) -> Random {
        let mut random = Random(seed.wrapping_mul(0x9e37_79b9_7f4a_7c15) | 1);
        for _ in 0..8 {
            random.word();
        }
        random
    }

    pub fn word(&mut self) -> u64 {
        self.0 ^= self.0 >> 12;
        self.0 ^= self.0 << 25;
        self.0 ^= self.0 >> 27;
        self.0.wrapping_mul(0x2545_f491_4f6c_dd1d)
    }

    pub fn below(&mut self, n: u64) -> u64 {
        (self.word() >> 32) * n >> 32
    }

    fn sign(&mut self) -> u64 {
        self.word() & (1 << 63)
    }

    /// A fraction field: any, or few bits at either end, or long runs of one bit.
    fn fraction(&mut self) -> u64 {
        let all = (1u64 << 52) - 1;
        let few = (1u64 << self.below(53)).wrapping_sub(1) & all;
        match self.below(6) {
            0 => 0,
            1 => few,
            2 => all ^ few,
            3 => (1 << self.below(52)) | (1 << self.below(52)),
            _ => self.word() & all,
        }
    }

    /// A finite float whose exponent field lies from `low` to `high`.
    fn between(&mut self, low: u64, high: u64) -> f64 {
        let field = low + self.below(high - low + 1);
        f64::from_bits(self.sign() | field << 52 | self.fraction())
    }

    /// A finite float of moderate size.
    pub fn moderate(&mut self) -> f64 {
        self.between(1023 - 40, 1023 + 40)
    }

    pub fn any_pattern(&mut self) -> f64 {
        f64::from_bits(self.word())
    }

    pub fn subnormal(&mut self) -> f64 {
        self.between(0, 3)
    }

    /// A whole number within 2^31 of 0, as a square sheet has them.
    pub fn whole(&mut self) -> f64 {
        (self.word() as i32) as f64
    }

    /// 0, 1 or -1, and now and then -0.
    pub fn unit(&mut self) -> f64 {
        [0.0, 1.0, -1.0, 1.0, -1.0, -0.0, 0.0, 1.0][self.below(8) as usize]
    }

    /// Zeros, infinities, NaN and the edges of the formats.
    pub fn edge(&mut self) -> f64 {
        const EDGES: [u64; 16] = [
            0x0000_0000_0000_0000, // 0
            0x7ff0_0000_0000_0000, // infinity
            0x7ff8_0000_0000_0000, // NaN
            0x0000_0000_0000_0001, // smallest value
            0x000f_ffff_ffff_ffff, // largest subnormal
            0x0010_0000_0000_0000, // smallest normal
            0x7fef_ffff_ffff_ffff, // largest value
            0x3ff0_0000_0000_0000, // 1
            0x3fef_ffff_ffff_ffff, // below 1
            0x3ff0_0000_0000_0001, // above 1
            0x4340_0000_0000_0000, // 2^53
            0x3690_0000_0000_0000, // half the smallest f32
            0x36a0_0000_0000_0000, // smallest f32
            0x380f_ffff_e000_0000, // below the smallest normal f32
            0x47ef_ffff_f000_0000, // least that narrows to an infinity
            0x47ef_ffff_efff_ffff, // the one below it
        ];
        f64::from_bits(self.sign() | EDGES[self.below(16) as usize])
    }
}

/// A kind of input to the fused operation.
#[derive(Clone, Copy, PartialEq)]
pub enum Kind {
    Square,
    SquareFirst,
    Moderate,
    AnyPattern,
    Cancelling,
    Cancelled,
    Halfway,
    BesideHalfway,
    Subnormal,
    PowerOfTwo,
    Gap,
    Overflow,
    Edge,
}

pub const KINDS: [(Kind, &str); 13] = [
    (Kind::Square, "square sheet"),
    (Kind::SquareFirst, "square sheet, unit first"),
    (Kind::Moderate, "moderate"),
    (Kind::AnyPattern, "any pattern"),
    (Kind::Cancelling, "near-cancelling sum"),
    (Kind::Cancelled, "cancelled sum"),
    (Kind::Halfway, "halfway product"),
    (Kind::BesideHalfway, "beside halfway"),
    (Kind::Subnormal, "subnormal result"),
    (Kind::PowerOfTwo, "small power of two"),
    (Kind::Gap, "huge exponent gap"),
    (Kind::Overflow, "near overflow"),
    (Kind::Edge, "edges"),
];

/// x, y and z of that kind.
pub fn triple(random: &mut Random, kind: Kind) -> (f64, f64, f64) {
    match kind {
        Kind::Square => (random.whole(), random.unit(), random.whole()),
        Kind::SquareFirst => (random.unit(), random.whole(), random.whole()),
        Kind::Moderate => (random.moderate(), random.moderate(), random.moderate()),
        Kind::AnyPattern => (random.any_pattern(), random.any_pattern(), random.any_pattern()),
        Kind::Cancelling => {
            // z is within a few last digits of -(x * y)
            let (x, y) = if random.below(2) == 0 {
                (random.moderate(), random.moderate())
            } else {
                (random.between(100, 1500), random.between(500, 1000))
            };
            let z = -(x * y);
            let near = z.to_bits().wrapping_add(random.below(9)).wrapping_sub(4);
            let z = f64::from_bits(near);
            (x, y, if z.is_nan() { -(x * y) } else { z })
        }
        Kind::Cancelled => {
            // the product has few enough digits to be exact, and z takes it away
            let x = (random.word() >> (38 + random.below(20))) as f64 * 2f64.powi(random.below(200) as i32 - 100);
            let y = (random.word() >> (38 + random.below(20))) as f64 * random.unit();
            (x, y, -(x * y))
        }
        Kind::Halfway => {
            // 53 digits times 3: of 54 digits the product is a tie, which z leaves, or breaks from far off
            let x = f64::from_bits(random.moderate().to_bits() & !0x000f_ffff_ffff_fffe | random.word() >> 12 | 1);
            let y = 3.0 * 2f64.powi(random.below(9) as i32 - 4);
            let z = match random.below(3) {
                0 => 0.0,
                1 => random.between(1023 - 300, 1023 - 120),
                _ => x * random.unit(),
            };
            (x, if random.below(2) == 0 { y } else { -y }, z)
        }
        Kind::BesideHalfway => {
            // the product is half a last digit of z, or a little more or less
            let k = 10 + random.below(43) as i32;
            let z = random.between(1023 - 40, 1023 + 40);
            let half = f64::from_bits((z.to_bits() >> 52 & 0x7ff) - 53 << 52);
            let x = 2f64.powi(random.below(60) as i32 - 30);
            let y = half / x;
            let near = if random.below(3) == 0 { 0.0 } else { 2f64.powi(-k) };
            let side = if random.below(2) == 0 { near } else { -near };
            let sign = if random.below(2) == 0 { 1.0 } else { -1.0 };
            (x * (1.0 + near), y * (1.0 + side) * sign, z)
        }
        Kind::Subnormal => {
            let x = random.between(400, 700);
            let y = random.between(300, 640);
            (x, y, if random.below(3) == 0 { 0.0 } else { random.subnormal() })
        }
        Kind::PowerOfTwo => {
            // a product that loses digits below the smallest value, and a sum that shows it
            let x = f64::from_bits(random.sign() | random.word() >> (11 + random.below(40)));
            let y = f64::from_bits(random.sign() | (1022 - random.below(3)) << 52);
            let z = f64::from_bits(random.sign() | random.word() >> (11 + random.below(40)));
            (x, y, z)
        }
        Kind::Gap => {
            let z = if random.below(2) == 0 { random.between(1700, 2046) } else { random.between(0, 300) };
            (random.between(700, 1300), random.between(700, 1300), z)
        }
        Kind::Overflow => (random.between(1500, 1560), random.between(1450, 1515), random.between(1990, 2046)),
        Kind::Edge => {
            let pick = |r: &mut Random| if r.below(4) == 0 { r.moderate() } else { r.edge() };
            (pick(random), pick(random), pick(random))
        }
    }
}

/// A float to be narrowed: around the values and the midpoints of f32, its subnormals and its limits.
pub fn to_narrow(random: &mut Random) -> f64 {
    match random.below(6) {
        0 => random.any_pattern(),
        1 => random.between(1023 - 155, 1023 - 120),
        2 => random.between(1023 + 120, 1023 + 130),
        3 => random.edge(),
        4 => {
            // a midpoint of two f32s, or beside one
            let x = random.between(1023 - 126, 1023 + 127).to_bits() & !0x1fff_ffff | 0x1000_0000;
            f64::from_bits(x.wrapping_add(random.below(3)).wrapping_sub(1))
        }
        _ => random.moderate(),
    }
}

/// A count: any, of any length, and around the midpoints of f32.
pub fn to_count(random: &mut Random) -> u64 {
    match random.below(4) {
        0 => random.word(),
        1 => random.word() >> random.below(64),
        2 => random.below(1 << 26),
        _ => {
            let shift = random.below(40);
            let odd = ((1 << 24) + random.below(1 << 24)) << 1 | 1;
            (odd << shift >> 1).wrapping_add(random.below(3)).wrapping_sub(1)
        }
    }
}
