// Stand-ins for `bevy::math` (glam), `gdsr::Point`, `Layer`, `DataType` and `Radians`: document 01's steps, no more.
// Spliced by build.rs into each copy of the planner, so that a planted mistake can touch them too.

/// Two floats with glam's operations, each rounded by itself.
#[derive(Clone, Copy, Debug, PartialEq)]
pub struct DVec2 {
    pub x: f64,
    pub y: f64,
}

impl DVec2 {
    pub const ZERO: Self = Self { x: 0.0, y: 0.0 };

    pub const fn new(x: f64, y: f64) -> Self {
        Self { x, y }
    }

    pub const fn splat(value: f64) -> Self {
        Self { x: value, y: value }
    }

    /// "The pairwise least in `transform_bbox` is a if a < b, else b."
    pub fn min(self, other: Self) -> Self {
        Self {
            x: if self.x < other.x { self.x } else { other.x },
            y: if self.y < other.y { self.y } else { other.y },
        }
    }

    /// "(greatest alike)"
    pub fn max(self, other: Self) -> Self {
        Self {
            x: if self.x > other.x { self.x } else { other.x },
            y: if self.y > other.y { self.y } else { other.y },
        }
    }
}

impl std::ops::Add for DVec2 {
    type Output = Self;
    fn add(self, other: Self) -> Self {
        Self { x: self.x + other.x, y: self.y + other.y }
    }
}

impl std::ops::Mul<f64> for DVec2 {
    type Output = Self;
    fn mul(self, factor: f64) -> Self {
        Self { x: self.x * factor, y: self.y * factor }
    }
}

/// Two columns.
#[derive(Clone, Copy, Debug)]
pub struct DMat2 {
    pub x_axis: DVec2,
    pub y_axis: DVec2,
}

impl DMat2 {
    pub const fn from_cols(x_axis: DVec2, y_axis: DVec2) -> Self {
        Self { x_axis, y_axis }
    }

    /// "parent·v is xaxis·vx + yaxis·vy alone."
    pub fn times(self, v: DVec2) -> DVec2 {
        self.x_axis * v.x + self.y_axis * v.y
    }
}

/// A placement: two columns and a translation.
#[derive(Clone, Copy, Debug)]
pub struct DAffine2 {
    pub matrix2: DMat2,
    pub translation: DVec2,
}

impl DAffine2 {
    pub const IDENTITY: Self = Self {
        matrix2: DMat2 { x_axis: DVec2::new(1.0, 0.0), y_axis: DVec2::new(0.0, 1.0) },
        translation: DVec2::ZERO,
    };

    pub const fn from_mat2_translation(matrix2: DMat2, translation: DVec2) -> Self {
        Self { matrix2, translation }
    }

    /// "p goes to (xaxis·px + yaxis·py) + translation, each operation rounded."
    pub fn transform_point2(&self, point: DVec2) -> DVec2 {
        self.matrix2.times(point) + self.translation
    }
}

impl std::ops::Mul for DAffine2 {
    type Output = Self;
    /// "columns parent·axis, and translation parent·translation + parent translation."
    fn mul(self, child: Self) -> Self {
        Self {
            matrix2: DMat2 {
                x_axis: self.matrix2.times(child.matrix2.x_axis),
                y_axis: self.matrix2.times(child.matrix2.y_axis),
            },
            translation: self.matrix2.times(child.translation) + self.translation,
        }
    }
}

/// `merge` passes over a NaN, and of equal values takes the first.
pub trait FirstOfEquals {
    fn first_least(self, other: Self) -> Self;
    fn first_greatest(self, other: Self) -> Self;
}

impl FirstOfEquals for f64 {
    fn first_least(self, other: f64) -> f64 {
        if self.is_nan() || other < self { other } else { self }
    }

    fn first_greatest(self, other: f64) -> f64 {
        if self.is_nan() || other > self { other } else { self }
    }
}

/// A coordinate that is already in user units.
#[derive(Clone, Copy, Debug, PartialEq)]
pub struct Coordinate(f64);

impl Coordinate {
    pub const fn absolute_value(self) -> f64 {
        self.0
    }
}

#[derive(Clone, Copy, Debug, PartialEq)]
pub struct Point {
    x: Coordinate,
    y: Coordinate,
}

impl Point {
    pub const fn of(pair: [f64; 2]) -> Self {
        Self { x: Coordinate(pair[0]), y: Coordinate(pair[1]) }
    }

    pub const fn x(&self) -> Coordinate {
        self.x
    }

    pub const fn y(&self) -> Coordinate {
        self.y
    }
}

/// "Cos and sin stand in for `sin_cos`."
#[derive(Clone, Copy, Debug, PartialEq)]
pub struct Radians {
    pub cos: f64,
    pub sin: f64,
}

impl Radians {
    pub const fn value(self) -> Self {
        self
    }

    pub const fn sin_cos(self) -> (f64, f64) {
        (self.sin, self.cos)
    }
}

#[derive(Clone, Copy, Debug, PartialEq, Eq, PartialOrd, Ord, Hash)]
pub struct Layer(u16);

impl Layer {
    pub const fn new(value: u16) -> Self {
        Self(value)
    }

    pub const fn value(self) -> u16 {
        self.0
    }
}

#[derive(Clone, Copy, Debug, PartialEq, Eq, PartialOrd, Ord, Hash)]
pub struct DataType(u16);

impl DataType {
    pub const fn new(value: u16) -> Self {
        Self(value)
    }

    pub const fn value(self) -> u16 {
        self.0
    }
}
