//! Enclosures beside whole numbers of 32 bits: each operation on each pair of 8-bit ends.

use zugyelmas::Enclosure;
use zugyelmas::prelude::*;

type Number = FixedI8<4>;

/// The ends of an enclosure, as whole numbers.
type Ends = (i32, i32);

fn enclosure((low, high): Ends) -> Enclosure<i8, 4> {
    let number = |bits| Number::from_bits(i8::try_from(bits).expect("an end of 8 bits"));
    Enclosure::new(number(low), number(high)).expect("ends in order")
}

fn ends(enclosure: Enclosure<i8, 4>) -> Ends {
    (
        enclosure.low().to_bits().into(),
        enclosure.high().to_bits().into(),
    )
}

/// Each pair of ends in order, of those from -128 to 127 that are `step` apart.
fn pairs(step: usize) -> impl Iterator<Item = Ends> + Clone {
    let all = (-128..128).step_by(step);
    all.clone().flat_map(move |low| {
        all.clone()
            .filter(move |high| low <= *high)
            .map(move |high| (low, high))
    })
}

/// The ends, if both fit.
fn fitting(low: i32, high: i32) -> Option<Ends> {
    let fits = |end| (-128..128).contains(&end);
    (fits(low) && fits(high)).then_some((low, high))
}

#[test]
fn negatives_magnitudes_and_squares() {
    for (low, high) in pairs(1) {
        let found = enclosure((low, high));
        assert_eq!(found.checked_neg().map(ends), fitting(-high, -low));
        let magnitudes = (low..=high).map(i32::abs);
        let (least, greatest) = (magnitudes.clone().min(), magnitudes.max());
        let (least, greatest) = (least.expect("a number"), greatest.expect("a number"));
        assert_eq!(found.checked_abs().map(ends), fitting(least, greatest));
        let (down, up) = (least * least / 16, (greatest * greatest + 15) / 16);
        assert_eq!(found.checked_square().map(ends), fitting(down, up));
        assert_eq!(i32::from(found.width().to_bits()), high - low);
    }
}

#[test]
fn operators_and_sets() {
    for (a, b) in pairs(17).flat_map(|a| pairs(15).map(move |b| (a, b))) {
        let (left, right) = (enclosure(a), enclosure(b));
        assert_eq!(
            left.checked_add(right).map(ends),
            fitting(a.0 + b.0, a.1 + b.1)
        );
        assert_eq!(
            left.checked_sub(right).map(ends),
            fitting(a.0 - b.1, a.1 - b.0)
        );
        let corners = [a.0 * b.0, a.0 * b.1, a.1 * b.0, a.1 * b.1];
        let down = corners
            .map(|corner| corner.div_euclid(16))
            .into_iter()
            .min();
        let up = corners
            .map(|corner| -(-corner).div_euclid(16))
            .into_iter()
            .max();
        let product = fitting(down.expect("a corner"), up.expect("a corner"));
        assert_eq!(left.checked_mul(right).map(ends), product);
        if let Some(product) = product {
            assert_eq!(ends(left * right), product);
        }
        assert_eq!(ends(left.hull(right)), (a.0.min(b.0), a.1.max(b.1)));
        let common = (a.0.max(b.0), a.1.min(b.1));
        assert_eq!(
            left.intersection(right).map(ends),
            (common.0 <= common.1).then_some(common)
        );
        assert_eq!(left.contains_enclosure(right), a.0 <= b.0 && b.1 <= a.1);
    }
}

#[test]
fn comparisons_of_each_two_numbers_and_of_some() {
    let small: Vec<Ends> = (-3..4)
        .flat_map(|low| (low..4).map(move |high| (low, high)))
        .collect();
    for (a, b) in small
        .iter()
        .flat_map(|a| small.iter().map(move |b| (*a, *b)))
    {
        let numbers = (a.0..=a.1).flat_map(|x| (b.0..=b.1).map(move |y| (x, y)));
        let (left, right) = (enclosure(a), enclosure(b));
        assert_eq!(
            left.certainly_lt(right),
            numbers.clone().all(|(x, y)| x < y)
        );
        assert_eq!(
            left.certainly_le(right),
            numbers.clone().all(|(x, y)| x <= y)
        );
        assert_eq!(
            left.certainly_eq(right),
            numbers.clone().all(|(x, y)| x == y)
        );
        assert_eq!(left.possibly_lt(right), numbers.clone().any(|(x, y)| x < y));
        assert_eq!(
            left.possibly_le(right),
            numbers.clone().any(|(x, y)| x <= y)
        );
        assert_eq!(
            left.possibly_eq(right),
            numbers.clone().any(|(x, y)| x == y)
        );
    }
}
