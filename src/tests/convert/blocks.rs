// Made by `make package` of crates/tests_convert/src/blocks.rt, which is proved: changes go there.

//! Blocks: each operation by a policy, with results that were computed by hand. 16 units are 1.0.

use crate::block::{
    Abs, Add, Convert, Dist, Each, Mul, MulAdd, MulInt, Neg, Pairs, Scale, Sub, checked_each,
    checked_pairs, saturating_each, saturating_pairs, wrapping_each, wrapping_pairs,
};
use crate::word::Rounding;

/// A block of `i8` after a saturating operation.
fn saturated<O: Each<i8>>(operation: &O) -> [i8; 3] {
    let mut block = [40, -128, 127];
    saturating_each(operation, &mut block);
    block
}

#[test]
fn one_block() {
    assert!(saturated(&Abs) == [40, 127, 127]);
    assert!(saturated(&Neg) == [-40, 127, -127]);
    assert!(saturated(&MulInt { k: 3 }) == [120, -128, 127]);
    assert!(saturated(&Scale { by: 24, frac: 4 }) == [60, -128, 127]);
    let eighths = Convert {
        from: 4,
        to: 3,
        rounding: Rounding::Even,
    };
    assert!(saturated(&eighths) == [20, -64, 64]);
    let mut block = [40_i8, -128, 127];
    wrapping_each(&Neg, &mut block);
    assert!(block == [-40, -128, -127]);
}

#[test]
fn one_block_checked() {
    let mut block = [40_i8, -128, 127];
    assert!(checked_each(&Neg, &mut block) == Some(1));
    assert!(block == [-40, -128, 127]);
    assert!(checked_each(&Scale { by: 8, frac: 4 }, &mut block) == None);
    assert!(block == [-20, -64, 63]);
}

/// A block of `u16` after a wrapping operation with another one.
fn wrapped<O: Pairs<u16>>(operation: &O) -> [u16; 2] {
    let mut block = [40, 60000];
    wrapping_pairs(operation, &mut block, &[24, 10000]);
    block
}

#[test]
fn two_blocks() {
    assert!(wrapped(&Add) == [64, 4464]);
    assert!(wrapped(&Sub) == [16, 50000]);
    assert!(wrapped(&Dist) == [16, 50000]);
    assert!(wrapped(&Mul { frac: 4 }) == [60, 13408]);
    assert!(wrapped(&MulAdd { by: 8, frac: 4 }) == [52, 65000]);
    let mut block = [40_i64, i64::MAX];
    saturating_pairs(&Add, &mut block, &[24, 1]);
    assert!(block == [64, i64::MAX]);
}

#[test]
fn two_blocks_checked() {
    let mut block = [40_i8, 100];
    assert!(checked_pairs(&MulAdd { by: 8, frac: 4 }, &mut block, &[24, 100]) == Some(1));
    assert!(block == [52, 100]);
    assert!(checked_pairs(&Sub, &mut block, &[52, 100]) == None);
    assert!(block == [0, 0]);
}
