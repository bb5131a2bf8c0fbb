//! Dot products beside sums of products in wider integers.

use std::fmt::Debug;
use zugyelmas::block::dot_of;
use zugyelmas::convert::Castable;
use zugyelmas::word::{Side, Word, checked_of, saturating_of, wrapping_of};

/// Numbers that are drawn, the same in each run.
struct Draws(u64);

impl Iterator for Draws {
    type Item = u64;

    fn next(&mut self) -> Option<u64> {
        self.0 ^= self.0 << 13;
        self.0 ^= self.0 >> 7;
        self.0 ^= self.0 << 17;
        Some(self.0)
    }
}

fn words<T: Castable>(draws: &mut Draws, count: usize, down: u32) -> Vec<T> {
    let wide = |bits: u64| T::from_wide(i128::from((bits as i64) >> down));
    draws.take(count).map(wide).collect()
}

/// The dot product of words of up to 32 bits by each policy, beside that of integers of 128 bits.
fn dots_of<T: Castable + Word + Debug>() {
    let mut draws = Draws(88_172_645_463_325_252);
    for count in [0, 1, 2, 5, 17, 1000, 16_384, 16_385, 40_000] {
        for down in [0, 33, 48, 57, 61] {
            let (a, b) = (words::<T>(&mut draws, count, down), words::<T>(&mut draws, count, down));
            let product = |(x, y): (&T, &T)| x.to_wide() * y.to_wide();
            let sum: i128 = a.iter().zip(&b).map(product).sum();
            for frac in [0, 1, T::BITS / 2, T::BITS] {
                let exact = sum >> frac;
                let found = dot_of(&a, &b, frac).expect("a sum of 128 bits");
                let (least, most) = (T::MIN.to_wide(), T::MAX.to_wide());
                assert_eq!(saturating_of(found).to_wide(), exact.clamp(least, most));
                assert_eq!(wrapping_of(found), T::from_wide(exact));
                let fits = (least..=most).contains(&exact);
                assert_eq!(checked_of(found), fits.then(|| T::from_wide(exact)));
            }
        }
    }
}

#[test]
fn dots_of_narrow_words() {
    dots_of::<i8>();
    dots_of::<i16>();
    dots_of::<i32>();
    dots_of::<u8>();
    dots_of::<u16>();
    dots_of::<u32>();
}

/// The ends of a narrow word, at more numbers than are summed at once.
#[test]
fn dots_of_ends() {
    let sum = |count: i128, x: i128, y: i128| count * x * y;
    let (least, most) = (vec![i16::MIN; 40_000], vec![i16::MAX; 40_000]);
    let found = dot_of(&least, &least, 16).expect("a sum");
    assert_eq!(found.wrapped, (sum(40_000, -32_768, -32_768) >> 16) as i16);
    assert_eq!(found.side, Side::Above);
    let found = dot_of(&least, &most, 16).expect("a sum");
    assert_eq!(found.wrapped, (sum(40_000, -32_768, 32_767) >> 16) as i16);
    assert_eq!(found.side, Side::Below);
    let most = vec![u16::MAX; 40_000];
    let found = dot_of(&most, &most, 16).expect("a sum");
    assert_eq!(found.wrapped, (sum(40_000, 65_535, 65_535) >> 16) as u16);
    assert_eq!(found.side, Side::Above);
}

/// Sums of words of 64 bits that fit in 128 bits, and those that do not.
#[test]
fn dots_of_wide_words() {
    let a = [i64::MIN, i64::MAX, 3];
    let b = [i64::MAX, i64::MAX, -5];
    let sum = i128::from(i64::MIN) * i128::from(i64::MAX) + i128::from(i64::MAX).pow(2) - 15;
    let found = dot_of(&a, &b, 64).expect("a sum of 128 bits");
    assert_eq!((found.wrapped, found.side), ((sum >> 64) as i64, Side::Fits));
    let found = dot_of(&a, &b, 0).expect("a sum of 128 bits");
    assert_eq!((found.wrapped, found.side), (sum as i64, Side::Below));

    // 2^126 + 2^126 is one more than the largest number of 128 bits, even if the rest takes it back.
    let least = [i64::MIN; 3];
    assert!(dot_of(&least[..1], &least[..1], 64).is_some());
    assert!(dot_of(&least[..2], &least[..2], 64).is_none());
    assert!(dot_of(&least, &[i64::MIN, i64::MIN, 1], 64).is_none());

    let most = [u64::MAX; 2];
    let found = dot_of(&most[..1], &most[..1], 64).expect("a sum of 128 bits");
    assert_eq!((found.wrapped, found.side), (u64::MAX - 1, Side::Fits));
    assert!(dot_of(&most, &most, 64).is_none());
    assert!(dot_of(&most, &[u64::MAX, 1], 64).is_some());
}
