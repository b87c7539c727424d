//! Document 01's placement steps over numbers of either kind: fractions, which no step rounds, and floats, which each step rounds.
//! Apart from the planner, its stand-ins and the generator.

use super::fraction::Fraction;
use crate::sheet::Reference;

pub trait Number: Clone {
    fn of(value: f64) -> Self;
    fn plus(&self, other: &Self) -> Self;
    fn times(&self, other: &Self) -> Self;
    fn opposite(&self) -> Self;
    /// A product and a sum, rounded once at most.
    fn fused(&self, factor: &Self, term: &Self) -> Self;
}

impl Number for Fraction {
    fn of(value: f64) -> Self {
        Self::of(value)
    }

    fn plus(&self, other: &Self) -> Self {
        self.plus(other)
    }

    fn times(&self, other: &Self) -> Self {
        self.times(other)
    }

    fn opposite(&self) -> Self {
        self.opposite()
    }

    fn fused(&self, factor: &Self, term: &Self) -> Self {
        self.times(factor).plus(term)
    }
}

impl Number for f64 {
    fn of(value: f64) -> Self {
        value
    }

    fn plus(&self, other: &Self) -> Self {
        self + other
    }

    fn times(&self, other: &Self) -> Self {
        self * other
    }

    fn opposite(&self) -> Self {
        -self
    }

    fn fused(&self, factor: &Self, term: &Self) -> Self {
        self.mul_add(*factor, *term)
    }
}

pub type Vector<N> = [N; 2];

pub fn vector<N: Number>(pair: [f64; 2]) -> Vector<N> {
    pair.map(N::of)
}

fn plus<N: Number>(a: &Vector<N>, b: &Vector<N>) -> Vector<N> {
    [a[0].plus(&b[0]), a[1].plus(&b[1])]
}

fn scaled<N: Number>(v: &Vector<N>, factor: &N) -> Vector<N> {
    [v[0].times(factor), v[1].times(factor)]
}

#[derive(Clone)]
pub struct Placement<N> {
    x_axis: Vector<N>,
    y_axis: Vector<N>,
    translation: Vector<N>,
}

impl<N: Number> Placement<N> {
    pub fn identity() -> Self {
        Self { x_axis: vector([1.0, 0.0]), y_axis: vector([0.0, 1.0]), translation: vector([0.0, 0.0]) }
    }

    /// "parent·v is xaxis·vx + yaxis·vy alone."
    fn turn(&self, v: &Vector<N>) -> Vector<N> {
        plus(&scaled(&self.x_axis, &v[0]), &scaled(&self.y_axis, &v[1]))
    }

    /// "p goes to (xaxis·px + yaxis·py) + translation."
    pub fn point(&self, p: &Vector<N>) -> Vector<N> {
        plus(&self.turn(p), &self.translation)
    }

    /// "columns parent·axis, and translation parent·translation + parent translation."
    pub fn times(&self, child: &Self) -> Self {
        Self {
            x_axis: self.turn(&child.x_axis),
            y_axis: self.turn(&child.y_axis),
            translation: self.point(&child.translation),
        }
    }

    /// A member of a grid: its spacings are turned with it, but neither reflected nor magnified.
    pub fn member(reference: &Reference, column: u32, row: u32) -> Self {
        let [cos, sin, magnification] = [reference.cos, reference.sin, reference.magnification].map(N::of);
        let spaced = |spacing, count: u32| scaled(&vector(spacing), &N::of(f64::from(count)));
        let offset = plus(&spaced(reference.spacing_x, column), &spaced(reference.spacing_y, row));
        let turned = [
            offset[0].fused(&cos, &offset[1].times(&sin).opposite()),
            offset[0].fused(&sin, &offset[1].times(&cos)),
        ];
        let y_axis = if reference.reflection { [sin.clone(), cos.opposite()] } else { [sin.opposite(), cos.clone()] };
        Self {
            x_axis: scaled(&[cos, sin], &magnification),
            y_axis: scaled(&y_axis, &magnification),
            translation: plus(&vector(reference.origin), &turned),
        }
    }
}
