//! That the check of slanted sheets rests on sound arithmetic, and that it can fail: results worked out by hand, fractions against
//! whole numbers of 128 bits, and a planner that keeps cos and sin in 32 bits.

use super::TRACED;
use super::bounds::{Placed, are_kept, of_position};
use super::check::records;
use super::fraction::Fraction;
use super::placement::{Placement, vector};
use super::whole::Whole;
use crate::generator::encode::{grid, single};
use crate::generator::rng::Rng;
use crate::sheet::{Query, Reference, Sheet, Source};
use crate::variants::checked;

fn count(claims: &[bool]) -> (usize, usize) {
    let met = claims.iter().filter(|claim| **claim).count();
    (met, claims.len() - met)
}

fn power(exponent: u32) -> Whole {
    Whole::of(1).shifted_left(exponent)
}

/// Results worked out by hand.
pub fn by_hand() -> (usize, usize) {
    let over = Fraction::over;
    let of = Fraction::of;
    let one = Whole::of(1);
    let limb = Whole::of(u128::from(u64::MAX));
    count(&[
        limb.times(&limb) == power(128).minus(&power(65)).plus(&one),
        power(200).plus(&one).times(&power(200).minus(&one)) == power(400).minus(&one),
        power(400).minus(&one).plus(&one).shifted_right(400) == one,
        power(64).minus(&one) == limb && limb < power(64) && power(128) > power(65),
        of(0.5) == over(1, 1) && of(-1.5) == over(-3, 1) && of(3.0) == over(3, 0),
        of(0.0) == over(0, 0) && of(-0.0) == over(0, 7) && of(-0.0).is_zero(),
        of(0.1) == over(3_602_879_701_896_397, 55),
        of(f64::from_bits(1)) == Fraction::new(false, one.clone(), 1_074),
        of(-f64::from_bits(3)) == Fraction::new(true, Whole::of(3), 1_074),
        of(f64::MIN_POSITIVE) == Fraction::new(false, one.clone(), 1_022),
        of(f64::MAX) == Fraction::new(false, power(1_024).minus(&power(971)), 0),
        of(f64::from_bits(1)).times(&of(f64::from_bits(1))) == Fraction::new(false, one.clone(), 2_148),
        of(1.5).times(&of(-2.25)) == over(-27, 3),
        of(16_777_216.0).minus(&of(2f64.powi(-30))) == over((1 << 54) - 1, 30),
        of(1.0).plus(&of(2f64.powi(-52))).times(&of(1.0).minus(&of(2f64.powi(-52)))).minus(&of(1.0)) == of(-2f64.powi(-104)),
        of(0.25).distance(&of(1.0)) == over(3, 2) && of(1.0).distance(&of(0.25)) == over(3, 2),
        over(-1, 2) < over(-1, 3) && over(1, 3) < over(1, 2) && over(2, 1) == over(1, 0),
        of(0.1).decimal(20) == "0.10000000000000000555" && over(-5, 1).decimal(3) == "-2.500",
    ])
}

/// Sums, products and orders of small fractions, against whole numbers of 128 bits.
pub fn against_whole_numbers() -> (usize, usize) {
    let mut rng = Rng::new(14);
    let claims: Vec<bool> = (0..2_000)
        .map(|_| {
            let [a, b] = [(); 2].map(|()| i128::from(rng.next() as i64 >> rng.range(8, 63)));
            let [p, q] = [(); 2].map(|()| rng.range(0, 30) as u32);
            let (x, y) = (Fraction::over(a, p), Fraction::over(b, q));
            // Both over 2^(p + q).
            let (wide_a, wide_b) = (a << q, b << p);
            x.plus(&y) == Fraction::over(wide_a + wide_b, p + q)
                && x.minus(&y) == Fraction::over(wide_a - wide_b, p + q)
                && x.times(&y) == Fraction::over(a * b, p + q)
                && x.cmp(&y) == wide_a.cmp(&wide_b)
                && Fraction::of(a as f64) == Fraction::over(a as f64 as i128, 0)
        })
        .collect();
    count(&claims)
}

/// Placements and bounds worked out by hand.
pub fn placements() -> (usize, usize) {
    let reference = Reference {
        reflection: true,
        origin: [10.0, -20.0],
        spacing_y: [1.0, 2.0],
        magnification: 0.5,
        cos: 0.75,
        sin: -0.25,
        ..grid(Source::Text(0), None, (4, 3), [8.0, 0.0])
    };
    let member = Placement::<Fraction>::member(&reference, 3, 2);
    // The offset (26, 4) is turned to (20.5, -3.5); the point (4, 8), reflected and magnified to (2, -4), to (0.5, -3.5).
    let point = member.point(&vector([4.0, 8.0]));
    // The parent sends (31, -27) by its axes (0.375, -0.125) and (-0.125, -0.375) to (15, 6.25), and adds (30.5, -23.5).
    let twice = member.times(&member).point(&vector([4.0, 8.0]));
    let axes = [0, 1, 2, 3, 4, 5].map(|references| Placed::after(references).axis.error);
    let bounds = POSITION_ERRORS.iter().enumerate().all(|(references, &error)| of_position(references) == Fraction::over(error, 53));
    count(&[point == vector([31.0, -27.0]), twice == vector([45.5, -17.25]), axes == [0, 15, 55, 155, 395, 955], bounds])
}

/// The bounds on a position by the number of references, in units of 2^-53, reckoned apart from `bounds.rs`.
const POSITION_ERRORS: [i128; 7] =
    [100_663_302, 1_169_103_519_786, 5_707_004_903_532, 18_357_763_965_162, 49_984_359_629_280, 125_062_870_991_814, 298_045_698_738_060];

/// Four references within the bounds, near their ends; the members of the last are a row of 1,024 texts.
fn adversarial() -> (Query, Sheet) {
    let mut sheet = Sheet::default();
    let mut source = Source::Text(sheet.text(1, 0, [16_777_215.3, -16_777_215.7]));
    for level in 0..4 {
        let reference = Reference {
            columns: if level == 0 { 1_024 } else { 1 },
            reflection: level == 2,
            origin: [-16_777_215.1, 16_777_215.9],
            spacing_x: [16_777_215.6, 16_777_214.2],
            magnification: 0.999_999_7,
            cos: 0.999_999_1,
            sin: -0.999_998_3,
            ..single(source, Some([-1.0, -1.0, 1.0, 1.0]))
        };
        let own = sheet.reference(reference);
        source = Source::Reference(own);
    }
    sheet.cell(0, None).references = vec![3];
    let far = 2f64.powi(60);
    (Query { root: 0, depth: 48, view: [-far, -far, far, far], zoom: 1_048_576.0, hidden: Vec::new() }, sheet)
}

/// The check passes the planner on that sheet, and not one that keeps cos and sin in 32 bits.
pub fn can_fail() -> (usize, usize) {
    let (query, sheet) = adversarial();
    let mut narrowed = sheet.clone();
    for reference in &mut narrowed.references {
        (reference.cos, reference.sin) = (f64::from(reference.cos as f32), f64::from(reference.sin as f32));
    }
    let own = records(&sheet, &query, &checked(&sheet, &query, TRACED));
    let other = records(&sheet, &query, &checked(&narrowed, &query, TRACED));
    let passes = own.is_ok_and(|seen| seen.len() == 1_024 && seen.iter().all(|record| record.references == 4));
    count(&[are_kept(&sheet), passes, other.is_err_and(|fault| fault.contains("above 1/64"))])
}
