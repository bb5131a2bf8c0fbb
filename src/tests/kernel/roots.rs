// Made by `make package` of crates/tests_kernel/src/roots.rt, which is proved: changes go there.

//! Known roots, every byte at every fraction, and the count of steps.

use super::chained::Chained;
use crate::root::root;
use crate::word::{Count, Digits, RawWord, Silent, Steps, Valued};

fn root_u8(val: u8, frac: u32) -> u8 {
    let mut steps = Steps::new(Silent::new());
    root(val, frac, &mut steps)
}

#[test]
fn known_roots() {
    for (val, frac, want) in [
        (255, 8, 255),
        (255, 7, 180),
        (255, 1, 22),
        (255, 0, 15),
        (1, 8, 16),
        (1, 7, 11),
        (1, 0, 1),
        (0, 8, 0),
    ] {
        if frac <= 8 {
            assert!(root_u8(val, frac) == want, "root of {val} with {frac}");
        }
    }
    let mut steps = Steps::new(Count::new());
    assert!(root(65535_u16, 16, &mut steps) == 65535);
    assert!(root(u64::MAX, 64, &mut steps) == u64::MAX);
    assert!(steps.ledger().count() <= 288 + 1056);
}

/// Whether the root of the number is its root by squares.
fn is_exact<D: Digits<Count> + RawWord>(val: D, frac: u32) -> bool {
    if frac > D::BITS || frac > 64 {
        return false;
    }
    let mut steps = Steps::new(Count::new());
    let found = root(val, frac, &mut steps).magnitude() as u128;
    let number = (val.magnitude() as u128) << frac;
    let square = found * found;
    square <= number && number - square <= 2 * found
}

/// The greatest words, of both signs, with every fraction.
fn greatest<D: Digits<Count> + RawWord>() {
    let half = D::residue(false, (D::MAX.magnitude() / 2) as u128);
    for frac in 0..=D::BITS {
        assert!(is_exact(D::MAX, frac), "greatest with {frac}");
        assert!(is_exact(half, frac), "greatest signed with {frac}");
    }
}

/// The root of 2 with every fraction, by the bits of the constant.
fn two<D: Digits<Count> + RawWord>() {
    for frac in 0..63_u32 {
        if frac + 2 <= D::BITS && frac < 63 {
            let val = D::residue(false, 2 << frac);
            let mut steps = Steps::new(Count::new());
            let found = root(val, frac, &mut steps).magnitude();
            let want = 0xB504_F333_F9DE_6484_u64 >> (63 - frac);
            assert!(found == want, "root of 2 with {frac}: {found}");
        }
    }
}

/// Both of the two, at one word.
fn both<D: Digits<Count> + RawWord>() {
    greatest::<D>();
    two::<D>();
}

#[test]
fn greatest_and_two() {
    both::<u8>();
    both::<u16>();
    both::<u32>();
    both::<u64>();
}

#[test]
fn every_byte() {
    let mut most = 0;
    for frac in 0..=8_u32 {
        for val in 0..=255_u8 {
            let mut steps = Steps::new(Count::new());
            let digits = root(val, frac, &mut steps) as u32;
            let count = steps.ledger().count();
            if most < count {
                most = count;
            }
            let number = (val as u32) << frac;
            assert!(digits * digits <= number, "root of {val} with {frac}");
            assert!(
                number < (digits + 1) * (digits + 1),
                "root of {val} with {frac}"
            );
        }
    }
    assert!(most <= 160, "count {most}");
}

#[test]
fn chained() {
    let mut steps = Steps::new(Silent::new());
    let val = Chained {
        word: 255,
        chain: 0,
    };
    let made = root(val, 8, &mut steps);
    assert!(made.word == 255 && 4 <= made.chain);
}
